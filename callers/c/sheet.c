/* Prints the rights sheet of a meter, to be hung up in the meter room. Standard input has the requests, one a line as in
 * the text session, and the argument is the meter: `sheet 7 < requests`. Says on standard error what was refused. */
#define _POSIX_C_SOURCE 200809L
#include <stdio.h>
#include <stdlib.h>
#include <string.h>
#include <sys/types.h>

#include "access_base.h"

static uint8_t base[ACCESS_BASE_BYTES];
static char page[ACCESS_BASE_SHEET_BYTES], out[ACCESS_BASE_TEXT_BYTES];

int main(int count, char **words)
{
    char *line = NULL, *end = NULL;
    size_t room = 0;
    ssize_t length;
    unsigned long meter = count == 2 ? strtoul(words[1], &end, 10) : 0;
    struct access_base_reply r;
    if (count != 2 || *words[1] == 0 || *end != 0) {
        fprintf(stderr, "usage: sheet METER < REQUESTS\n");
        return 2;
    }
    access_base_make(base, sizeof base);
    while ((length = getline(&line, &room, stdin)) > 0) {
        length -= line[length - 1] == '\n';
        r = access_base_tell(base, sizeof base, line, (size_t)length, out, sizeof out);
        if (strncmp(out, "refused", 7) == 0)
            fprintf(stderr, "%.*s: %.*s", (int)length, line, (int)r.number, out);
    }
    free(line);
    r = access_base_write_report(base, sizeof base, meter > UINT32_MAX ? 0 : (uint32_t)meter, page, sizeof page);
    if (r.refusal != ACCESS_BASE_DONE) {
        fprintf(stderr, "refused %u\n", (unsigned)r.refusal);
        return 1;
    }
    fwrite(page, 1, r.number, stdout);
    return 0;
}
