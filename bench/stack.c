/* How much of the stack each function of the library takes at most: each call is made in a thread whose
 * stack was painted, and the bytes below the call that are no longer painted are counted. The bases have
 * 1,000 lines; an ordinary one has 40 rules, the others 64, by which a question reaches as far as we could
 * make it. Prints the table of docs/LIBRARY.md in Markdown, and a column for each of the others. With a
 * word as argument, only the functions whose name has it. */
#define _POSIX_C_SOURCE 200809L
#include <inttypes.h>
#include <pthread.h>
#include <stdio.h>
#include <stdlib.h>
#include <string.h>

#include "bases.h"

typedef struct access_base_request request;
typedef struct access_base_side side;

enum { STACK = 1 << 20, PAINT = 0xA5, BATCH = 2 };

static uint8_t stack[STACK] __attribute__((aligned(4096)));
static uint8_t lent[ACCESS_BASE_BYTES], replies[BATCH];
static uint32_t list[ACCESS_BASE_BODY_NUMBERS];
static char page[ACCESS_BASE_SHEET_BYTES], out[ACCESS_BASE_TEXT_BYTES];

/* ---- calls: the i-th of a function, and whether there is another */

static bool create(int i)
{
    access_base_make(lent, sizeof lent);
    return i < 0;
}

static bool is_sound(int i)
{
    access_base_is_sound(lent, sizeof lent);
    return i < 0;
}

/* A request of each kind. The first rule's label is ROOMY_LINES + 1. */
static bool request_of(int i)
{
    side any = {true, 0, true, 0, false, 1, false};
    request q = {.kind = 1 + (uint32_t)i, .now = 4, .requester = 1, .mode = 1, .object = 1, .subject = 3, .start = 4,
                 .end = 5000, .label = 1, .rule = {.left = any, .operation = 1, .right = any, .any_grantor = true,
                                                   .any_option = true}};
    if (q.kind == ACCESS_BASE_REVOKEADM)
        q.subject = 2;
    if (q.kind == ACCESS_BASE_DROPRULE)
        q.label = ROOMY_LINES + 1;
    access_base_do(lent, sizeof lent, &q);
    return i < 11;
}

/* Where many lines are live, and behind all of them. */
static bool may(int i)
{
    access_base_ask_may(lent, sizeof lent, 3, 1, 1, i == 0 ? 1500 : 5000);
    return i < 1;
}

/* With a list that is long enough, and with one that is too short. */
static bool when(int i)
{
    access_base_ask_when(lent, sizeof lent, 3, 1, 1, list, i == 0 ? 2 * ACCESS_BASE_PAIRS : 2);
    return i < 1;
}

static bool batch(int i)
{
    static const struct access_base_question q[BATCH] = {{3, 1, 1, 1500}, {3, 1, 1, 5000}};
    access_base_ask_round(lent, sizeof lent, q, BATCH, replies, sizeof replies);
    return i < 0;
}

static bool records(int i)
{
    access_base_read(lent, sizeof lent, (uint32_t)i, 0, list, ACCESS_BASE_BODY_NUMBERS);
    return i < 5;
}

static bool report(int i)
{
    access_base_write_report(lent, sizeof lent, 1, page, sizeof page);
    return i < 0;
}

static bool text(int i)
{
    static const char *const lines[] = {
        "4 1 NEW 99", "4 1 GRANT 1 1 3 4 5000 y", "4 1 DENY 1 1 3 4 5000", "4 1 REVOKE 1", "4 1 REVOKEP 1 1 3 4 5000",
        "4 1 REVOKEN 1 1 3 4 5000", "4 1 DROPRULE 1001", "4 1 GRANTADM 1 4", "4 1 REVOKEADM 1 2", "4 1 GRANTREF 1 4",
        "MAY 3 1 1 5000", "WHEN 3 1 1"};
    int count = sizeof lines / sizeof *lines;
    access_base_tell(lent, sizeof lent, lines[i], strlen(lines[i]), out, sizeof out);
    return i < count - 1;
}

/* ---- the measure */

struct call {
    bool (*make)(int);
    int i;
    bool more;
    const uint8_t *from;
};

static void *made(void *at)
{
    struct call *c = at;
    c->from = __builtin_frame_address(0);
    c->more = c->make(c->i);
    return NULL;
}

/* Bytes of the stack that one call takes. */
static size_t depth(struct call *c)
{
    pthread_t thread;
    pthread_attr_t attributes;
    memcpy(lent, base, sizeof lent);
    memset(stack, PAINT, sizeof stack);
    if (pthread_attr_init(&attributes) != 0 || pthread_attr_setstack(&attributes, stack, sizeof stack) != 0 ||
        pthread_create(&thread, &attributes, made, c) != 0 || pthread_join(thread, NULL) != 0)
        exit(1);
    size_t painted = 0;
    while (stack[painted] == PAINT)
        painted++;
    return (size_t)(c->from - stack) - painted;
}

/* The most that a call of a function takes, on the base that a function makes. */
static size_t deepest(bool (*make)(int), void (*build)(void))
{
    size_t most = 0;
    struct call c = {make, 0, true, NULL};
    build();
    for (; c.more; c.i++) {
        size_t d = depth(&c);
        most = d > most ? d : most;
    }
    return most;
}

static const struct {
    const char *name;
    void (*build)(void);
} bases[] = {{"bytes of stack", ordinary},
             {"far-reaching rules", widest},
             {"the same, each naming its grantor", widest_choosy},
             {"the same with UNLESS", widest_unless},
             {"with ASLONGAS and a circle, each naming its grantor", widest_circle},
             {"rules for all meters, each naming its grantor", all_meters},
             {"the same with ASLONGAS", all_meters_aslongas}};

static const struct {
    const char *name;
    bool (*make)(int);
} functions[] = {{"create", create}, {"is_sound", is_sound}, {"request", request_of},
                 {"may", may},       {"when", when},         {"batch_words", batch},
                 {"records", records}, {"report", report},   {"text", text}};

enum { BASES = sizeof bases / sizeof *bases, FUNCTIONS = sizeof functions / sizeof *functions };

static void row(int f)
{
    printf("| `%s` |", functions[f].name);
    for (int b = 0; b < BASES; b++)
        printf(" %zu |", deepest(functions[f].make, bases[b].build));
    printf("\n");
    fflush(stdout);
}

int main(int argc, char **argv)
{
    const char *word = argc > 1 ? argv[1] : "";
    printf("| function |");
    for (int b = 0; b < BASES; b++)
        printf(" %s |", bases[b].name);
    printf("\n|---|");
    for (int b = 0; b < BASES; b++)
        printf("---|");
    printf("\n");
    for (int f = 0; f < FUNCTIONS; f++)
        if (strstr(functions[f].name, word) != NULL)
            row(f);
    return 0;
}
