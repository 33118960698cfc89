/* Full bases that were built to be slow, and the calls that suffer: how long they take, through the proved
 * library and through plain C. Both must find the base sound and answer alike. Prints tables in Markdown,
 * in milliseconds; of a question also what it takes beyond the soundness check of its base, timed in turns
 * with it. With a word as argument, only the bases whose names have it. */
#include "harness.h"

#include "bases.h"

static const char *word = "";

/* ---- calls; none depends on how many went before */

static uint32_t subject, instant;

static reply is_sound(const struct library *l, uint32_t i)
{
    (void)i;
    return (reply){0, 0, l->is_sound(base, sizeof base)};
}

static reply when(const struct library *l, uint32_t i)
{
    (void)i;
    return l->when(base, sizeof base, subject, 1, 1, lent.list, 2 * ACCESS_BASE_PAIRS);
}

/* With a list that just fits the 1,024 runs. */
static reply when_just(const struct library *l, uint32_t i)
{
    (void)i;
    return l->when(base, sizeof base, subject, 1, 1, lent.list, 2 * 1024);
}

static reply may(const struct library *l, uint32_t i)
{
    (void)i;
    return l->may(base, sizeof base, subject, 1, 1, instant);
}

static reply report(const struct library *l, uint32_t i)
{
    (void)i;
    return l->report(base, sizeof base, 1, lent.page, sizeof lent.page);
}

static reply order(const struct library *l, request q)
{
    memcpy(lent.base, base, sizeof base);
    q.now = 5000;
    q.requester = 1;
    return l->request(lent.base, sizeof base, &q);
}

static reply revoke_first(const struct library *l, uint32_t i)
{
    (void)i;
    return order(l, (request){.kind = ACCESS_BASE_REVOKE, .label = 1});
}

static reply revoke_last(const struct library *l, uint32_t i)
{
    (void)i;
    return order(l, (request){.kind = ACCESS_BASE_REVOKE, .label = 1022});
}

static reply split(const struct library *l, uint32_t i)
{
    (void)i;
    return order(l, (request){.kind = ACCESS_BASE_REVOKEP, .mode = 1, .object = 1, .subject = 2,
                              .start = 1000, .end = 1000});
}

/* ---- rows */

static void built(const char *name, void (*build)(void))
{
    build();
    if (compare(name, is_sound, 1).number != 1) {
        fprintf(stderr, "%s: the base is not sound\n", name);
        exit(1);
    }
}

/* One row, of a call to the base that is there; of a question, also what it takes beyond the check. */
static void print_row(const char *call_name, const char *name, call_of *call, bool question)
{
    reply r = compare(name, call, 1);
    struct timed t[] = {{.call = call, .refusal = r.refusal}, {.call = is_sound}};
    time_in_turns(t, question ? 2 : 1, 1);
    printf("| %s%s | %" PRIu32 ", %" PRIu32 " |", call_name, name, r.refusal, r.number);
    print_both(whole(&t[0]), 1e-3, 3);
    if (question)
        print_both(beyond(&t[0], &t[1]), 1e-3, 4);
    printf("\n");
    fflush(stdout);
}

static void row(const char *name, void (*build)(void), call_of *call)
{
    if (strstr(name, word) == NULL)
        return;
    built(name, build);
    print_row("", name, call, false);
}

/* MAY and WHEN of mode 1 on meter 1. */
static void questions(const char *name, void (*build)(void), uint32_t of_subject, uint32_t at)
{
    if (strstr(name, word) == NULL)
        return;
    built(name, build);
    subject = of_subject;
    instant = at;
    print_row("MAY, ", name, may, true);
    print_row("WHEN, ", name, when, true);
    if (build == apart)
        print_row("WHEN with a list that just fits, ", name, when_just, true);
}

static void checks_and_requests(void)
{
    printf("| call and base | reply | proved, ms | plain C, ms | ratio |\n|---|---|---|---|---|\n");
    row("soundness check, 512 lines across 511", across, is_sound);
    row("soundness check, a chain of 1,022, times falling with labels", falling, is_sound);
    row("soundness check, 1,024 lines on one meter", apart, is_sound);
    row("rights sheet, 1,024 lines on one meter", apart, report);
    row("REVOKE of the root, 512 lines across 511", across, revoke_first);
    row("REVOKEP of an instant at the root, 512 lines across 511", across, split);
    row("REVOKE of the first of a chain of 1,022, times falling with labels", falling, revoke_last);
}

static void all_questions(void)
{
    printf("\n| question and base | reply | proved, ms | plain C, ms | ratio "
           "| beyond the check: proved, ms | plain C, ms | ratio |\n|---|---|---|---|---|---|---|---|\n");
    questions("1,024 lines of one access, all apart", apart, 2, 2056);
    questions("1,024 lines of one access, all apart, scattered", apart_scattered, 2, 2056);
    questions("one line cut up by 1,023 denials, scattered", cut_up, 2, 8999);
    questions("128 administrators of one meter", administrators, 2, 12);
    questions("512 lines apart and 512 within them, scattered", scattered, 3, 5122);
    questions("one line cut up by 1,023 denials, and a rule for the access", cut_up_with_rule, 2, 8999);
    questions("one rule that 1,024 lines apart feed, scattered", one_rule, 2, 4102);
    questions("64 starred WHENEVERNOT rules in a chain, 1,024 lines apart", starred_chain, 2, 2056);
    questions("64 negating rules over 64 named subjects, all lines live", named_chain, 2, 8999);
    questions("64 negating rules with named subjects on one meter", one_meter, 2, 7999);
    questions("a circle through which ASLONGAS goes on from line to line", zigzag, 2, 10249);
    questions("a circle of 64 starred WHENEVER rules, 1,024 lines apart", circle, 2, 2056);
    questions("a circle of 64 WHENEVER rules that end one by one, 20 lines", circle_few, 2, 130);
    questions("rules that lead to 33 subjects with 8 modes", many_places, 2, 1500);
    questions("64 rules that lead to 29 subjects, 8 modes and 30 meters", widest, 3, 1500);
    questions("64 such rules, each naming its grantor", widest_choosy, 3, 1500);
    questions("64 such rules with UNLESS", widest_unless, 3, 1500);
    questions("64 such rules with ASLONGAS and a circle, each naming its grantor", widest_circle, 3, 1500);
    questions("eight rules for all of an owner's 128 meters", one_owner, 2, 1000);
    questions("64 rules, 43 of them for all of an owner's 22 meters, each naming its grantor", all_meters, 3, 1500);
    questions("the same with ASLONGAS", all_meters_aslongas, 3, 1500);
    questions("rings of 20 subjects, 20 meters and 8 modes", rings, 3, 1500);
    questions("such rings, each rule naming its grantor", rings_choosy, 3, 1500);
    questions("such rings, 16 rules naming different grantors", rings_kinds, 3, 1500);
}

int main(int argc, char **argv)
{
    word = argc > 1 ? argv[1] : "";
    checks_and_requests();
    all_questions();
    return 0;
}
