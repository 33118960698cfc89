/* What the benchmark's programs share: the two libraries under one interface, the clock, and timing in
 * turns. */
#ifndef HARNESS_H
#define HARNESS_H

#define _POSIX_C_SOURCE 200809L
#include <inttypes.h>
#include <stdio.h>
#include <stdlib.h>
#include <string.h>
#include <time.h>

#include "../callers/c/access_base.h"
#include "plain.h"

typedef struct access_base_request request;
typedef struct access_base_reply reply;
typedef struct access_base_question question;

/* ---- what is compared: seven functions */

struct library {
    const char *name;
    reply (*create)(uint8_t *, size_t);
    bool (*is_sound)(const uint8_t *, size_t);
    reply (*request)(uint8_t *, size_t, const request *);
    reply (*may)(const uint8_t *, size_t, uint32_t, uint32_t, uint32_t, uint32_t);
    reply (*when)(const uint8_t *, size_t, uint32_t, uint32_t, uint32_t, uint32_t *, size_t);
    reply (*batch)(const uint8_t *, size_t, const question *, size_t, uint8_t *, size_t);
    reply (*report)(const uint8_t *, size_t, uint32_t, char *, size_t);
};

static const struct library proved = {
    "proved", access_base_make, access_base_is_sound, access_base_do, access_base_ask_may, access_base_ask_when,
    access_base_ask_round, access_base_write_report};
static const struct library plain = {
    "plain C", plain_create, plain_is_sound, plain_request, plain_may, plain_when, plain_batch, plain_report};

static double seconds_of(clockid_t clock)
{
    struct timespec t;
    clock_gettime(clock, &t);
    return (double)t.tv_sec + 1e-9 * (double)t.tv_nsec;
}

static double seconds(void)
{
    return seconds_of(CLOCK_MONOTONIC);
}

/* This program's own time on the processor: what else runs on the machine does not count. */
static double own_seconds(void)
{
    return seconds_of(CLOCK_PROCESS_CPUTIME_ID);
}

static double lesser(double a, double b)
{
    return a < b ? a : b;
}

/* ---- calls */

enum { BATCH = 500 };

/* What calls write to. */
static struct {
    uint8_t base[ACCESS_BASE_BYTES];
    uint32_t list[2 * ACCESS_BASE_PAIRS];
    uint8_t replies[BATCH];
    char page[ACCESS_BASE_SHEET_BYTES];
} lent;

/* The i-th call of a kind. */
typedef reply call_of(const struct library *, uint32_t i);

/* Exits unless both answer the first so many calls alike and leave the same behind; the last reply. */
static reply compare(const char *name, call_of *call, uint32_t count)
{
    static uint8_t left[sizeof lent];
    reply a = {0, 0, 0};
    for (uint32_t i = 0; i < count; i++) {
        a = call(&proved, i);
        memcpy(left, &lent, sizeof lent);
        reply b = call(&plain, i);
        if (a.refusal != b.refusal || a.label != b.label || a.number != b.number ||
            memcmp(left, &lent, sizeof lent) != 0) {
            fprintf(stderr, "%s, call %" PRIu32 ": the two differ\n", name, i);
            exit(1);
        }
    }
    return a;
}

/* ---- the clock */

/* A row's rounds end after so many seconds, be they fewer. */
#define ROW_SECONDS 6.0

enum { ROUNDS = 200 };

/* A kind of call, its refusal, how many make a round, and the seconds that one took in each round. */
struct timed {
    call_of *call;
    uint32_t refusal;
    struct side_of {
        const struct library *library;
        uint32_t count;
        int rounds;
        double took[ROUNDS];
    } proved, plain;
};

/* Seconds of the processor that so many calls take. A call that is refused otherwise than it should be would
 * be something else. */
static double seconds_for(const struct timed *t, const struct library *l, uint32_t count)
{
    uint32_t others = 0, refusal = 0;
    double from = own_seconds();
    for (uint32_t i = 0; i < count; i++) {
        refusal = t->call(l, i).refusal;
        others += refusal != t->refusal;
    }
    double took = own_seconds() - from;
    if (others != 0) {
        fprintf(stderr, "%s: timed calls are refused otherwise than before, the last with %" PRIu32 "\n",
                l->name, refusal);
        exit(1);
    }
    return took;
}

/* Begins with rounds of a millisecond, and of at least so many calls. */
static void begin(const struct timed *t, struct side_of *s, const struct library *l, uint32_t least)
{
    s->library = l;
    s->count = least;
    s->rounds = 0;
    while (s->count < 1u << 20 && seconds_for(t, l, s->count) < 0.001)
        s->count *= 2;
}

static void one_round(const struct timed *t, struct side_of *s)
{
    s->took[s->rounds++] = seconds_for(t, s->library, s->count) / s->count;
}

/* Times kinds of calls through both libraries, in rounds that take turns, so that what disturbs the machine
 * for a while disturbs all of them; every second round goes through the kinds backwards. */
static void time_in_turns(struct timed *t, int kinds, uint32_t least)
{
    for (int k = 0; k < kinds; k++) {
        begin(&t[k], &t[k].proved, &proved, least);
        begin(&t[k], &t[k].plain, &plain, least);
    }
    double from = seconds();
    for (int round = 0; round < ROUNDS && (round == 0 || seconds() - from < ROW_SECONDS); round++)
        for (int i = 0; i < 2 * kinds; i++) {
            int k = (round % 2 == 0 ? i : 2 * kinds - 1 - i) % kinds;
            one_round(&t[k], i < kinds ? &t[k].plain : &t[k].proved);
        }
}

/* ---- columns: the proved library, plain C, and the ratio */

struct both {
    double proved, plain;
};

/* The best round. */
static double best_round(const struct side_of *s)
{
    double least = s->took[0];
    for (int i = 1; i < s->rounds; i++)
        least = lesser(least, s->took[i]);
    return least;
}

static int rising(const void *a, const void *b)
{
    double x = *(const double *)a, y = *(const double *)b;
    return (x > y) - (x < y);
}

/* What one kind takes beyond another: the median of what they differ by, round by round. */
static double median_beyond(const struct side_of *s, const struct side_of *less)
{
    double by[ROUNDS];
    for (int i = 0; i < s->rounds; i++)
        by[i] = s->took[i] - less->took[i];
    qsort(by, (size_t)s->rounds, sizeof *by, rising);
    return (by[(s->rounds - 1) / 2] + by[s->rounds / 2]) / 2;
}

static struct both whole(const struct timed *t)
{
    return (struct both){best_round(&t->proved), best_round(&t->plain)};
}

static struct both beyond(const struct timed *t, const struct timed *less)
{
    return (struct both){median_beyond(&t->proved, &less->proved), median_beyond(&t->plain, &less->plain)};
}

static void print_both(struct both b, double unit, int digits)
{
    printf(" %.*f | %.*f | %.2f |", digits, b.proved / unit, digits, b.plain / unit, b.proved / b.plain);
}

#endif
