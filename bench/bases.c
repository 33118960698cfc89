#include "bases.h"

#include <inttypes.h>
#include <stdio.h>
#include <stdlib.h>

typedef struct access_base_request request;
typedef struct access_base_side side;

uint8_t base[ACCESS_BASE_BYTES];

/* Carries the request out, or exits. */
static void must(const request *q)
{
    uint32_t refusal = access_base_do(base, sizeof base, q).refusal;
    if (refusal != ACCESS_BASE_DONE) {
        fprintf(stderr, "a request of kind %" PRIu32 " is refused with %" PRIu32 "\n", q->kind, refusal);
        exit(1);
    }
}

/* An empty base with so many meters, all of owner 1. */
static void make(uint32_t objects)
{
    access_base_make(base, sizeof base);
    for (uint32_t object = 1; object <= objects; object++)
        must(&(request){.kind = ACCESS_BASE_NEW, .requester = 1, .object = object});
}

static void grant(
    uint32_t now, uint32_t grantor, uint32_t mode, uint32_t object, uint32_t subject, uint32_t start,
    uint32_t end)
{
    must(&(request){.kind = ACCESS_BASE_GRANT, .now = now, .requester = grantor, .mode = mode,
                    .object = object, .subject = subject, .start = start, .end = end, .option = true});
}

static void administrator(uint32_t object, uint32_t subject)
{
    must(&(request){.kind = ACCESS_BASE_GRANTADM, .requester = 1, .object = object, .subject = subject});
}

/* With 0 for a star. */
static side side_of(uint32_t subject, uint32_t mode, uint32_t object)
{
    return (side){subject == 0, subject, mode == 0, mode, object == 0, object, false};
}

/* A rule of owner 1 from start to end, which looks at what a grantor granted, with 0 for a star. */
static void rule_by(
    side left, uint32_t operation, side right, uint32_t grantor, uint32_t start, uint32_t end)
{
    must(&(request){.kind = ACCESS_BASE_ADDRULE, .now = 1, .requester = 1, .start = start, .end = end,
                    .rule = {.left = left, .operation = operation, .right = right,
                             .any_grantor = grantor == 0, .grantor = grantor, .any_option = true}});
}

/* The same; a choosy one looks only at what owner 1 granted. */
static void full_rule(side left, uint32_t operation, side right, bool choosy, uint32_t start, uint32_t end)
{
    rule_by(left, operation, right, choosy ? 1 : 0, start, end);
}

/* A rule for all time: left subject, mode and object, operator, right subject, mode and object. */
static void rule(
    uint32_t subject, uint32_t mode, uint32_t object, uint32_t operation, uint32_t right_subject,
    uint32_t right_mode, uint32_t right_object)
{
    side left = side_of(subject, mode, object), right = side_of(right_subject, right_mode, right_object);
    full_rule(left, operation, right, false, 1, ACCESS_BASE_LAST);
}

/* 0 to n - 1 in a scattered order: n and the step have no common factor. */
static uint32_t scatter(uint32_t i, uint32_t step, uint32_t n)
{
    return i * step % n;
}

/* ---- for the stack */

/* Meters with an administrator on the first; there lines of one access, all apart, every second one given by
 * the administrator; and 40 rules that each look at the next subject and the next meter. */
void ordinary(void)
{
    make(41);
    administrator(1, 2);
    for (uint32_t i = 0; i < ROOMY_LINES; i++)
        grant(0, 1 + i % 2, 1, 1, 3, 10 + 2 * i, 10 + 2 * i);
    for (uint32_t j = 0; j < 40; j++)
        full_rule(side_of(3 + j, 1, 1 + j), 1 + j % 4, side_of(4 + j, 1, 2 + j), false, 5, ACCESS_BASE_LAST);
}

/* 64 rules: on meter 1 from subject to subject, on meter 2 from mode to mode, and from each meter to the
 * next: of 30 meters the last rule looks at the last, of 29 at the first again, a circle; lines at all
 * those places. */
static void widest_of(uint32_t operation, bool choosy, uint32_t meters)
{
    make(30);
    administrator(1, 2);
    for (uint32_t i = 0; i < ROOMY_LINES; i++)
        grant(0, 1, 1 + i / 3 % 8, 1 + i % 30, 3 + i % 29, 10 + 2 * i, 20 + 3 * i);
    for (uint32_t j = 0; j < 28; j++)
        full_rule(side_of(3 + j, 0, 1), operation, side_of(4 + j, 0, 1), choosy, 5, ACCESS_BASE_LAST);
    for (uint32_t j = 1; j <= 7; j++)
        full_rule(side_of(0, j, 2), operation, side_of(0, j + 1, 2), choosy, 5, ACCESS_BASE_LAST);
    for (uint32_t j = 1; j <= 29; j++)
        full_rule(side_of(0, 0, j), operation, side_of(0, 0, j % meters + 1), choosy, 5, ACCESS_BASE_LAST);
}

void widest(void)
{
    widest_of(ACCESS_BASE_WHENEVER, false, 30);
}

void widest_choosy(void)
{
    widest_of(ACCESS_BASE_WHENEVER, true, 30);
}

void widest_unless(void)
{
    widest_of(ACCESS_BASE_UNLESS, false, 30);
}

void widest_circle(void)
{
    widest_of(ACCESS_BASE_ASLONGAS, true, 29);
}

/* 64 rules of the owner of all 22 meters, with starred meters where they can be: from subject to subject on
 * every meter, from meter to meter for every subject, and the rest for every subject and meter, choosy ones;
 * lines at all those places. */
static void all_meters_of(uint32_t operation)
{
    make(22);
    administrator(1, 2);
    for (uint32_t i = 0; i < ROOMY_LINES; i++)
        grant(0, 1, 1 + i / 3 % 8, 1 + i % 22, 3 + i % 23, 10 + 2 * i, 20 + 3 * i);
    for (uint32_t j = 0; j < 22; j++)
        full_rule(side_of(3 + j, 0, 0), operation, side_of(4 + j, 0, 0), true, 5, ACCESS_BASE_LAST);
    for (uint32_t j = 1; j <= 21; j++)
        full_rule(side_of(0, 0, j), operation, side_of(0, 0, j + 1), true, 5, ACCESS_BASE_LAST);
    for (uint32_t j = 0; j < 21; j++)
        full_rule(side_of(0, 0, 0), operation, side_of(0, 0, 0), true, 5, ACCESS_BASE_LAST);
}

void all_meters(void)
{
    all_meters_of(ACCESS_BASE_WHENEVER);
}

void all_meters_aslongas(void)
{
    all_meters_of(ACCESS_BASE_ASLONGAS);
}

/* Rings: on all of an owner's 20 meters from each of 20 subjects to the next, from each meter to the next and
 * from each mode to the next, the last of each looking at the first again, 16 rules for every place, and
 * lines apart: what one line gives goes round 3,200 places. The 16 look at what `grantor` granted, or at what
 * different ones did, and the others at what owner 1 did where they are choosy. */
static void rings_of(bool choosy, uint32_t grantor, bool different)
{
    make(20);
    for (uint32_t i = 0; i < ROOMY_LINES; i++)
        grant(0, 1, 1 + i / 3 % 8, 1 + i % 20, 3 + i * 7 % 20, 10 + 4 * i, 11 + 4 * i);
    for (uint32_t j = 0; j < 20; j++)
        full_rule(side_of(3 + j, 0, 0), ACCESS_BASE_WHENEVER, side_of(3 + (j + 1) % 20, 0, 0), choosy, 5,
                  ACCESS_BASE_LAST);
    for (uint32_t j = 0; j < 20; j++)
        full_rule(side_of(0, 0, 1 + j), ACCESS_BASE_WHENEVER, side_of(0, 0, 1 + (j + 1) % 20), choosy, 5,
                  ACCESS_BASE_LAST);
    for (uint32_t j = 0; j < 8; j++)
        full_rule(side_of(0, 1 + j, 0), ACCESS_BASE_WHENEVER, side_of(0, 1 + (j + 1) % 8, 0), choosy, 5,
                  ACCESS_BASE_LAST);
    for (uint32_t j = 0; j < 16; j++)
        rule_by(side_of(0, 0, 0), ACCESS_BASE_WHENEVER, side_of(0, 0, 0), different ? grantor + j : grantor,
                5, ACCESS_BASE_LAST);
}

void rings(void)
{
    rings_of(false, 0, false);
}

void rings_choosy(void)
{
    rings_of(true, 1, false);
}

void rings_kinds(void)
{
    rings_of(true, 1, true);
}

/* ---- without rules */

/* 511 neighbouring lines to one subject, and 512 that it gave across all of them. */
void across(void)
{
    make(1);
    grant(1, 1, 1, 1, 2, 10, 10 + 511 * 4);
    for (uint32_t i = 0; i < 511; i++)
        grant(2, 2, 1, 1, 3, 10 + 4 * i, 13 + 4 * i);
    for (uint32_t i = 0; i < 512; i++)
        grant(3, 3, 1, 1, 4 + i, 10, 9 + 511 * 4);
}

static void put(uint8_t *at, uint32_t n, int bytes)
{
    for (int i = 0; i < bytes; i++)
        at[i] = (uint8_t)(n >> 8 * i);
}

enum { WIDTH = 24 };

/* A chain of 1,022 in which a higher label was granted earlier: no request builds it, but it is sound. */
void falling(void)
{
    make(1);
    uint8_t *line = base + 36;
    for (uint32_t label = 1; label <= 1022; label++, line += WIDTH) {
        uint32_t place = 1022 - label; /* in the chain, the owner's first */
        put(line, label, 2);
        put(line + 2, 1 + place, 2);
        put(line + 4, 2 + place, 2);
        put(line + 6, 1, 2);
        put(line + 8, 1, 1);
        put(line + 9, 2, 1);
        put(line + 12, 1 + place, 4);
        put(line + 16, 5000, 4);
        put(line + 20, 9000, 4);
    }
    put(base + 4, 2000, 4);
    put(base + 8, 1022, 2);
    put(base + 26, 1022, 2);
    put(base + 28, 36 + 1022 * WIDTH, 2);
}

/* 1,024 lines of mode 1 to subject 2, so far apart, each so many instants long, granted by steps. */
static void lines_apart(uint32_t object, uint32_t apart_by, uint32_t length, uint32_t step)
{
    for (uint32_t i = 0; i < 1024; i++) {
        uint32_t start = 10 + apart_by * scatter(i, step, 1024);
        grant(1, 1, 1, object, 2, start, start + length - 1);
    }
}

/* 1,024 lines of one access, all apart. */
void apart(void)
{
    make(1);
    lines_apart(1, 2, 1, 1);
}

/* The same, granted in a scattered order. */
void apart_scattered(void)
{
    make(1);
    lines_apart(1, 2, 1, 677);
}

/* One line, and 1,023 denials that cut it up, scattered. */
void cut_up(void)
{
    make(1);
    grant(1, 1, 1, 1, 2, 5, 9000);
    for (uint32_t i = 0; i < 1023; i++) {
        uint32_t start = 10 + 4 * scatter(i, 677, 1023);
        must(&(request){.kind = ACCESS_BASE_DENY, .now = 1, .requester = 1, .mode = 1, .object = 1,
                        .subject = 2, .start = start, .end = start + 1});
    }
}

/* 128 administrators of one meter, who give lines to others. */
void administrators(void)
{
    make(1);
    for (uint32_t i = 0; i < 128; i++)
        administrator(1, 2 + 3 * i);
    for (uint32_t i = 0; i < 1024; i++)
        grant(1, 2 + 3 * (i % 128), 1 + i % 8, 1, 1 + i % 900, 10 + i, 20 + i);
}

/* 512 lines apart to one subject, which hands on 512, one in each, both scattered. */
void scattered(void)
{
    make(1);
    for (uint32_t subject = 2; subject <= 3; subject++)
        for (uint32_t i = 0; i < 512; i++) {
            uint32_t start = 10 + 10 * scatter(i, subject == 2 ? 197 : 101, 512);
            grant(subject - 1, subject - 1, 1, 1, subject, start, start + 5);
        }
}

/* ---- with rules */

/* The line that is cut up, and a starred rule that gives the access too. */
void cut_up_with_rule(void)
{
    cut_up();
    must(&(request){.kind = ACCESS_BASE_NEW, .now = 1, .requester = 1, .object = 2});
    rule(0, 0, 1, ACCESS_BASE_WHENEVERNOT, 0, 0, 2);
}

/* One rule that 1,024 lines apart feed, scattered. */
void one_rule(void)
{
    make(2);
    rule(0, 0, 1, ACCESS_BASE_WHENEVER, 0, 0, 2);
    lines_apart(2, 4, 2, 677);
}

/* 64 starred rules, each looking at the next one's meter, and 1,024 lines apart on the last. */
void starred_chain(void)
{
    make(65);
    for (uint32_t j = 1; j <= 64; j++)
        rule(0, 0, j, ACCESS_BASE_WHENEVERNOT, 0, 0, j + 1);
    lines_apart(65, 2, 1, 1);
}

/* 64 negating rules over 64 named subjects in 64 strata, and 1,024 lines that they look at, all live at
 * once. */
void named_chain(void)
{
    make(65);
    for (uint32_t j = 1; j <= 64; j++)
        rule(1 + j, 1, j, ACCESS_BASE_UNLESS + j % 2 - 1, 2 + j, 1, j + 1);
    for (uint32_t i = 0; i < 1024; i++)
        grant(1, 1, 1, 2 + i % 64, 3 + i % 64, 100 + i, 9000 - i);
}

/* 64 negating rules that all stand on one meter, each looking at the next subject. */
void one_meter(void)
{
    make(1);
    for (uint32_t j = 0; j < 64; j++)
        full_rule(side_of(2 + j, 1, 1), ACCESS_BASE_UNLESS - j % 2, side_of(3 + j, 1, 1), false, 1 + j,
                  9000 - j);
    for (uint32_t i = 0; i < 64; i++)
        grant(1, 1, 1, 1, 2 + i, 100 + i, 8000 - i);
}

/* Meters 1 and 3 have lines in turn; through a circle of rules ASLONGAS gets on by one line at a time. */
void zigzag(void)
{
    make(4);
    for (uint32_t object = 1; object <= 4; object++) {
        uint32_t operation = object % 2 == 1 ? ACCESS_BASE_ASLONGAS : ACCESS_BASE_WHENEVER;
        full_rule(side_of(2, 1, object % 4 + 1), operation, side_of(2, 1, object), false, 10,
                  ACCESS_BASE_LAST);
    }
    for (uint32_t i = 0; i < 1024; i++)
        grant(1, 1, 1, i % 2 == 1 ? 3 : 1, 2, 10 + 10 * i, 19 + 10 * i);
}

/* A circle of 64 starred rules; the j-th holds from 1 + later * j on, and to the end or to 5000 + j. */
static void circle_of_rules(uint32_t later)
{
    make(64);
    for (uint32_t j = 1; j <= 64; j++)
        full_rule(side_of(0, 0, j), ACCESS_BASE_WHENEVER, side_of(0, 0, j % 64 + 1), false, 1 + later * j,
                  later == 0 ? ACCESS_BASE_LAST : 5000 + j);
}

/* A circle of 64 starred rules, and 1,024 lines apart on one of their meters. */
void circle(void)
{
    circle_of_rules(0);
    lines_apart(40, 2, 1, 1);
}

/* A circle of 64 starred rules that begin and end one after the other, and 20 lines. */
void circle_few(void)
{
    circle_of_rules(1);
    for (uint32_t i = 0; i < 20; i++)
        grant(1, 1, 1, 1 + i, 2, 10 + 7 * i, 10 + 20 * i);
}

/* Rules from subject to subject, from mode to mode and from meter to meter: 33 subjects with 8 modes. */
void many_places(void)
{
    make(40);
    for (uint32_t j = 0; j < 32; j++)
        rule(2 + j, 0, 1, ACCESS_BASE_WHENEVER, 3 + j, 0, 1);
    for (uint32_t j = 0; j < 7; j++)
        rule(0, 1 + j, 1, ACCESS_BASE_WHENEVER, 0, 2 + j, 1);
    for (uint32_t j = 0; j < 25; j++)
        rule(0, 0, 1 + j, j % 2 == 1 ? ACCESS_BASE_WHENEVERNOT : ACCESS_BASE_WHENEVER, 0, 0, 2 + j);
    for (uint32_t i = 0; i < 1000; i++)
        grant(1, 1, 1 + i % 8, 1 + i % 26, 2 + i % 33, 10 + 2 * i, 20 + 3 * i);
}

/* An owner of 128 meters with eight rules for all of them: from one agent to the next, the last looking at
 * what the owner granted; lines of the last agent on every meter. */
void one_owner(void)
{
    make(128);
    for (uint32_t j = 0; j < 8; j++)
        full_rule(side_of(2 + j, 0, 0), ACCESS_BASE_WHENEVER, side_of(3 + j, 0, 0), j == 7, 1, ACCESS_BASE_LAST);
    for (uint32_t i = 0; i < 1024; i++)
        grant(1, 1, 1 + i / 128, 1 + i % 128, 10, 10 + 2 * i, 20 + 3 * i);
}
