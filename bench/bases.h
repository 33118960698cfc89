/* bases.h: sound bases that were built to be slow, or to take much room on the stack. Each function makes
 * one in `base`, and bases.c says what is in it. */
#ifndef BASES_H
#define BASES_H

#include "../callers/c/access_base.h"

extern uint8_t base[ACCESS_BASE_BYTES];

/* For the stack: so many lines, with labels from 1 on, and then rules; administrator 2 on meter 1. What is
 * asked of subject 3 on meter 1 of the widest rests on 29 subjects, 8 modes and all meters. */
enum { ROOMY_LINES = 1000 };
void ordinary(void);
void widest(void);
void widest_choosy(void);
void widest_unless(void);
void widest_circle(void);
void all_meters(void);
void all_meters_aslongas(void);
void rings(void);
void rings_choosy(void);
void rings_kinds(void);

/* Without rules. */
void across(void);
void falling(void);
void apart(void);
void apart_scattered(void);
void cut_up(void);
void administrators(void);
void scattered(void);

/* With rules. */
void cut_up_with_rule(void);
void one_rule(void);
void starred_chain(void);
void named_chain(void);
void one_meter(void);
void zigzag(void);
void circle(void);
void circle_few(void);
void many_places(void);
void one_owner(void);

#endif
