/* What both engines share: bounds checked before a proved function is called, what to do about a refusal, and the names of
 * a base's records. Nothing of a line or of a base is read here; the library does that. */
#ifndef ACCESS_BASE_LAYER_H
#define ACCESS_BASE_LAYER_H

#include "../c/access_base.h"

/* The longest line that the text session reads. */
#define ACCESS_BASE_LINE_BYTES 96u

enum { LAYER_TRUTH = 'b', LAYER_SMALL = 's', LAYER_INSTANT = 'i' };

/* The records of a body as rows: the body's name, how many columns, which are the record's numbers, each column's name and
 * what it is (a truth value, a number, an instant). */
struct layer_body {
    const char *name;
    uint32_t columns;
    const char *column[ACCESS_BASE_RECORD_NUMBERS];
    const char *kinds;
};

#define LAYER_BODIES 6u
/* The heading, and the bodies by their numbers. */
extern const struct layer_body layer_bodies[LAYER_BODIES];

/* What is wrong with a line before anybody reads it, as a sentence that says what to do; NULL if nothing is. */
const char *layer_line_fault(const uint8_t *line, size_t length);

/* What to do about a refusal of a question, as docs/REFUSALS.md has it. */
const char *layer_what_to_do(uint32_t refusal);

/* Puts one line to the base, in place. Writes the reply, without its newline and ended by NUL, to out, which has
 * ACCESS_BASE_TEXT_BYTES bytes, and gives its length; -1 if the library did not answer, which does not happen with a
 * buffer of that size. */
long layer_put(uint8_t *base, size_t base_length, const uint8_t *line, size_t line_length, char *out);

#endif
