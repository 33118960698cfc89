/* The benchmark: the same generated sessions through the proved library, through a plain C implementation
 * of the same functions (plain.c), and as text through the program `session`. Prints a table in Markdown:
 * microseconds a call, the ratio to plain C, the growth from the row with a quarter of the lines, and what
 * a question takes beyond the soundness check of the same base, timed in turns with it. Before anything is
 * timed, both must answer alike and leave the same bytes. With a word as argument, only the rows of that
 * call. */
#include "harness.h"

enum { MAX_REQUESTS = 2048 };

/* ---- generated sessions */

static uint64_t state;

static uint32_t below(uint32_t n)
{
    state = state * 6364136223846793005u + 1442695040888963407u;
    return (uint32_t)(state >> 33) % n;
}

/* A setup: the requests that build a base, all of which are accepted. */
struct setup {
    request q[MAX_REQUESTS];
    int count;
    uint32_t now;
};

static request *add(struct setup *s, uint32_t kind, uint32_t requester)
{
    request *q = &s->q[s->count++];
    memset(q, 0, sizeof *q);
    q->kind = kind;
    q->now = s->now;
    q->requester = requester;
    return q;
}

static void add_line(
    struct setup *s, uint32_t kind, uint32_t requester, uint32_t mode, uint32_t object, uint32_t subject,
    uint32_t start, uint32_t end, bool option)
{
    s->now++;
    request *q = add(s, kind, requester);
    q->mode = mode;
    q->object = object;
    q->subject = subject;
    q->start = start;
    q->end = end;
    q->option = option;
}

static void add_objects(struct setup *s)
{
    s->count = 0;
    s->now = 0;
    for (uint32_t object = 1; object <= 8; object++)
        add(s, ACCESS_BASE_NEW, 1)->object = object;
}

/* Whether the subject of a grant was denied the same within its interval: it could not hand on (refusal 14). */
static bool is_denied(const struct setup *s, const request *grant)
{
    for (int i = 0; i < s->count; i++) {
        const request *q = &s->q[i];
        if (q->kind == ACCESS_BASE_DENY && q->subject == grant->subject && q->object == grant->object &&
            q->mode == grant->mode && q->start <= grant->end && grant->start <= q->end)
            return true;
    }
    return false;
}

/* Owner to agent, agent to firm, firm to engineer, with denials between; every delegation lies within the interval of
 * the line that it hangs on, and comes from nobody who is denied there. */
static void add_delegations(struct setup *s, int lines)
{
    for (int i = 0; i < lines; i++) {
        int back = i == 0 ? 0 : 1 + (int)below((uint32_t)(i < 64 ? i : 64));
        const request *from = &s->q[s->count - back];
        bool delegable = back > 0 && from->kind == ACCESS_BASE_GRANT && from->option && from->end - from->start > 8 &&
                         !is_denied(s, from);
        if (i % 8 == 6) {
            uint32_t start = 20000 + below(5000);
            add_line(s, ACCESS_BASE_DENY, 1, 1 + below(4), 1 + below(8), 2 + below(40), start, start + below(3000),
                     false);
        } else if (i % 8 >= 2 && delegable) {
            uint32_t start = from->start + below((from->end - from->start) / 4);
            add_line(s, ACCESS_BASE_GRANT, from->subject, from->mode, from->object, 2 + below(40), start,
                     from->end - below((from->end - start) / 4), below(4) != 0);
        } else {
            uint32_t start = 20000 + below(5000);
            add_line(s, ACCESS_BASE_GRANT, 1, 1 + below(4), 1 + below(8), 2 + below(40), start,
                     start + 1000 + below(8000), below(4) != 0);
        }
    }
}

/* A chain: each subject hands on to the next. */
static void add_chain(struct setup *s, int lines)
{
    for (uint32_t i = 0; i < (uint32_t)lines; i++)
        add_line(s, ACCESS_BASE_GRANT, 1 + i, 1, 1, 2 + i, 20000 + i, 90000 - i, true);
}

static struct access_base_side some_side(bool star, uint32_t object, bool negative)
{
    uint32_t subject = star ? 0 : 2 + below(40), mode = star ? 0 : 1 + below(4);
    return (struct access_base_side){star, subject, star, mode, false, object, negative};
}

/* Rules whose right side lies on the next object, so that they feed each other over seven ranks and in no circle; every
 * second one starred. */
static void add_rules(struct setup *s, int rules)
{
    for (uint32_t j = 0; j < (uint32_t)rules; j++) {
        request *q = add(s, ACCESS_BASE_ADDRULE, 1);
        bool star = j % 2 == 1;
        uint32_t left = 1 + j % 7;
        q->start = 20000 + below(100);
        q->end = j % 3 == 0 ? ACCESS_BASE_LAST : 30000 + below(5000);
        q->rule.left = some_side(star, left, false);
        q->rule.right = some_side(star, left + 1, j % 5 == 4);
        q->rule.operation = 1 + j / 7 % 4;
        q->rule.any_grantor = true;
        q->rule.any_option = true;
    }
}

static void generate(struct setup *s, bool chain, int lines, int rules)
{
    state = 20261115;
    add_objects(s);
    if (chain)
        add_chain(s, lines);
    else
        add_delegations(s, lines);
    add_rules(s, rules);
}

static void build(const struct library *l, const struct setup *s, uint8_t *base)
{
    l->create(base, ACCESS_BASE_BYTES);
    for (int i = 0; i < s->count; i++) {
        reply r = l->request(base, ACCESS_BASE_BYTES, &s->q[i]);
        if (r.refusal != 0) {
            fprintf(stderr, "%s refuses request %d of a setup with %u\n", l->name, i, r.refusal);
            exit(1);
        }
    }
}

/* ---- the calls that are timed */

static uint8_t kept[ACCESS_BASE_BYTES];
static request asked;

static request one_more(const struct setup *s)
{
    request q = {.kind = ACCESS_BASE_GRANT, .requester = 1, .mode = 1, .object = 1, .subject = 3, .option = true};
    q.now = s->now;
    q.start = 20000;
    q.end = 25000;
    return q;
}

static request revoke_first(const struct setup *s)
{
    return (request){.kind = ACCESS_BASE_REVOKE, .now = s->now, .requester = 1, .label = 1};
}

/* The questions, made beforehand, since a MAY may take no longer than making one. */
enum { QUESTIONS = 512 };
static question questions[QUESTIONS];

static void make_questions(void)
{
    for (uint32_t i = 0; i < QUESTIONS; i++)
        questions[i] = (question){2 + i % 40, 1 + i % 4, 1 + i % 8, 20000 + i * 37 % 9000};
}

static reply is_sound(const struct library *l, uint32_t i)
{
    (void)i;
    return (reply){l->is_sound(kept, sizeof kept) ? 0 : ACCESS_BASE_INVALID_BASE, 0, 0};
}

static reply may(const struct library *l, uint32_t i)
{
    const question *q = &questions[i % QUESTIONS];
    return l->may(kept, sizeof kept, q->subject, q->mode, q->object, q->instant);
}

static reply when(const struct library *l, uint32_t i)
{
    const question *q = &questions[i % QUESTIONS];
    return l->when(kept, sizeof kept, q->subject, q->mode, q->object, lent.list, 2 * ACCESS_BASE_PAIRS);
}

/* What comes before each request. */
static reply copy(const struct library *l, uint32_t i)
{
    (void)l;
    (void)i;
    memcpy(lent.base, kept, sizeof kept);
    __asm__ volatile("" : : "r"(lent.base) : "memory");
    return (reply){0, 0, 0};
}

/* The request, on a fresh copy of the base. */
static reply order(const struct library *l, uint32_t i)
{
    copy(l, i);
    return l->request(lent.base, sizeof kept, &asked);
}

enum call { SOUND, MAY, WHEN, GRANT, CASCADE, CALLS };

/* The calls that are timed, and beside each what is taken off. */
static const struct {
    const char *name;
    call_of *call, *less;
} calls[] = {{"soundness check", is_sound, NULL},
             {"MAY", may, is_sound},
             {"WHEN", when, is_sound},
             {"GRANT", order, copy},
             {"cascade", order, copy}};

/* How many calls see every question. */
enum { EVERY = 40 };

/* Both answer so many calls alike, refuse none, and leave the same bytes. */
static void must_agree(const char *name, call_of *call, uint32_t count)
{
    uint32_t refusal = compare(name, call, count).refusal;
    if (refusal != 0) {
        fprintf(stderr, "%s is refused with %" PRIu32 "\n", name, refusal);
        exit(1);
    }
}

/* ---- the same as text */

static void print_side(FILE *f, const struct access_base_side *s)
{
    if (s->any_subject)
        fprintf(f, " *");
    else
        fprintf(f, " %" PRIu32, s->subject);
    if (s->any_mode)
        fprintf(f, " *");
    else
        fprintf(f, " %" PRIu32, s->mode);
    if (s->any_object)
        fprintf(f, " *");
    else
        fprintf(f, " %" PRIu32, s->object);
    fprintf(f, " %c", s->negative ? '-' : '+');
}

static void print_request(FILE *f, const request *q)
{
    static const char *const operators[] = {"", "WHENEVER", "ASLONGAS", "WHENEVERNOT", "UNLESS"};
    fprintf(f, "%" PRIu32 " %" PRIu32 " ", q->now, q->requester);
    switch (q->kind) {
    case ACCESS_BASE_NEW:
        fprintf(f, "NEW %" PRIu32 "\n", q->object);
        break;
    case ACCESS_BASE_GRANT:
    case ACCESS_BASE_DENY:
        fprintf(f, "%s %" PRIu32 " %" PRIu32 " %" PRIu32 " %" PRIu32 " %" PRIu32 "%s\n",
                q->kind == ACCESS_BASE_GRANT ? "GRANT" : "DENY", q->mode, q->object, q->subject, q->start, q->end,
                q->kind == ACCESS_BASE_DENY ? "" : q->option ? " y" : " n");
        break;
    case ACCESS_BASE_REVOKE:
        fprintf(f, "REVOKE %" PRIu32 "\n", q->label);
        break;
    default:
        fprintf(f, "ADDRULE");
        print_side(f, &q->rule.left);
        fprintf(f, " %s", operators[q->rule.operation]);
        print_side(f, &q->rule.right);
        fprintf(f, " * * %" PRIu32 " %" PRIu32 "\n", q->start, q->end);
    }
}

static const char *const program = "target/bin/session";

/* The best time of a session, in which no line is refused. */
static double session_seconds(const char *file)
{
    char command[512];
    double best = 1e9;
    snprintf(command, sizeof command, "! '%s' < '%s' | grep -n -m 1 '^refused' >&2", program, file);
    if (system(command) != 0) {
        fprintf(stderr, "%s refuses that line of %s, or does not run\n", program, file);
        exit(1);
    }
    snprintf(command, sizeof command, "'%s' < '%s' > /dev/null", program, file);
    for (int round = 0; round < 5; round++) {
        double from = seconds();
        if (system(command) != 0)
            exit(1);
        best = lesser(best, seconds() - from);
    }
    return best;
}

static FILE *opened(const char *file)
{
    FILE *f = fopen(file, "w");
    if (f == NULL) {
        fprintf(stderr, "%s cannot be written\n", file);
        exit(1);
    }
    return f;
}

/* Writes the setup as text, and behind it so many calls. A GRANT is taken back at once, and the pair counts as two. */
static void write_session(const char *file, const struct setup *s, enum call call, const request *q, uint32_t count)
{
    FILE *f = opened(file);
    for (int i = 0; i < s->count; i++)
        print_request(f, &s->q[i]);
    uint32_t label = (uint32_t)s->count - 8;
    for (uint32_t i = 0; i < count; i++) {
        const question *a = &questions[i % QUESTIONS];
        if (call == MAY)
            fprintf(f, "MAY %u %u %u %u\n", a->subject, a->mode, a->object, a->instant);
        else if (call == WHEN)
            fprintf(f, "WHEN %u %u %u\n", a->subject, a->mode, a->object);
        else
            print_request(f, q);
        if (call == GRANT)
            fprintf(f, "%" PRIu32 " 1 REVOKE %" PRIu32 "\n", s->now, ++label);
    }
    fclose(f);
}

/* Writes so many rounds of a chain's grants and the withdrawal of its first line: how many lines that is. */
static uint32_t write_cascades(const char *file, const struct setup *s, int lines, uint32_t rounds)
{
    FILE *f = opened(file);
    uint32_t label = 0, now = s->now;
    for (int i = 0; i < s->count; i++)
        print_request(f, &s->q[i]);
    label = (uint32_t)s->count - 8;
    fprintf(f, "%" PRIu32 " 1 REVOKE 1\n", now);
    for (uint32_t round = 1; round < rounds; round++) {
        for (int i = 0; i < lines; i++) {
            request q = s->q[8 + i];
            q.now = ++now;
            print_request(f, &q);
        }
        fprintf(f, "%" PRIu32 " 1 REVOKE %" PRIu32 "\n", now, label + 1);
        label += (uint32_t)lines;
    }
    fclose(f);
    return (uint32_t)s->count + 1 + (rounds - 1) * ((uint32_t)lines + 1);
}

static const char *const session_file = "target/bench/session.txt";

/* Microseconds a line: of the calls alone, the setup's own time left out; for the cascade of the whole session, its
 * grants and withdrawals, since one withdrawal is too short to be timed from outside. */
static double text(const struct setup *s, enum call call, int lines, const request *q, double guess)
{
    uint32_t count = (uint32_t)(200000 / (guess + 1)) + 40;
    if (call == CASCADE) {
        uint32_t rounds = 19000 / (uint32_t)lines;
        count = write_cascades(session_file, s, lines, rounds);
        double took = session_seconds(session_file);
        fclose(opened(session_file));
        return 1e6 * (took - session_seconds(session_file)) / count;
    }
    if (call == GRANT && count > 30000)
        count = 30000; /* labels end at 65,535 */
    write_session(session_file, s, call, q, 0);
    double before = session_seconds(session_file);
    write_session(session_file, s, call, q, count);
    double after = session_seconds(session_file);
    return 1e6 * (after - before) / (call == GRANT ? 2 * count : count);
}

/* ---- the table */

static void must_build(int lines, int rules, bool chain, struct setup *s)
{
    static uint8_t other[ACCESS_BASE_BYTES];
    generate(s, chain, lines, rules);
    build(&proved, s, kept);
    build(&plain, s, other);
    if (memcmp(kept, other, sizeof other) != 0) {
        fprintf(stderr, "the two build different bases\n");
        exit(1);
    }
}

static void row(enum call call, int lines, int rules, double *last)
{
    static struct setup s;
    int built = call == GRANT ? lines - 1 : call == CASCADE && lines > 1000 ? 1000 : lines;
    must_build(built, rules, call == CASCADE, &s);
    asked = call == CASCADE ? revoke_first(&s) : one_more(&s);
    must_agree(calls[call].name, calls[call].call, 2 * EVERY);
    struct timed t[] = {{.call = calls[call].call}, {.call = calls[call].less}};
    time_in_turns(t, call == SOUND ? 1 : 2, EVERY);
    struct both b = call >= GRANT ? beyond(&t[0], &t[1]) : whole(&t[0]);
    printf("| %s | %d | %d |", calls[call].name, built, rules);
    print_both(b, 1e-6, 2);
    if (*last > 0)
        printf(" %.1f |", b.proved / *last);
    else
        printf(" |");
    *last = b.proved;
    if (call == SOUND)
        printf(" |");
    else
        printf(" %.2f |", text(&s, call, built, &asked, 1e6 * b.proved));
    if (call == MAY || call == WHEN)
        print_both(beyond(&t[0], &t[1]), 1e-6, 3);
    else
        printf(" | | |");
    printf("\n");
    fflush(stdout);
}

static void table(const char *word)
{
    static const int rules[] = {0, 8, 64}, lines[] = {16, 64, 256, 1024};
    printf("| call | lines | rules | proved, µs | plain C, µs | ratio | growth | text, µs a line "
           "| beyond the check: proved, µs | plain C, µs | ratio |\n"
           "|---|---|---|---|---|---|---|---|---|---|---|\n");
    for (int call = 0; call < CALLS; call++)
        for (int r = 0; r < 3 && strstr(calls[call].name, word) != NULL; r++) {
            double last = 0;
            for (int n = 0; n < 4; n++)
                row((enum call)call, lines[n], rules[r], &last);
        }
}

/* ---- a round's questions: in one call, and one call a question; the bytes must be the same */

static reply batch(const struct library *l, uint32_t i)
{
    (void)i;
    return l->batch(kept, sizeof kept, questions, BATCH, lent.replies, BATCH);
}

static reply one_by_one(const struct library *l, uint32_t i)
{
    uint32_t refusal = 0;
    (void)i;
    for (uint32_t k = 0; k < BATCH; k++) {
        reply r = may(l, k);
        refusal = refusal != 0 ? refusal : r.refusal;
        lent.replies[k] = (uint8_t)r.number;
    }
    return (reply){refusal, 0, 0};
}

static void must_answer_alike(void)
{
    uint8_t alone[BATCH];
    one_by_one(&proved, 0);
    memcpy(alone, lent.replies, sizeof alone);
    must_agree("batch", batch, 1);
    if (memcmp(lent.replies, alone, BATCH) != 0) {
        fprintf(stderr, "a batch answers otherwise than its questions alone\n");
        exit(1);
    }
}

static void batch_row(int lines, int rules)
{
    static struct setup s;
    must_build(lines, rules, false, &s);
    must_answer_alike();
    struct timed t[] = {{.call = batch}, {.call = is_sound}, {.call = one_by_one}};
    time_in_turns(t, 3, 1);
    struct both one = whole(&t[0]), many = whole(&t[2]);
    printf("| %d | %d | %.2f | %.2f | %.2f |", lines, rules, 1e3 * one.proved, 1e3 * many.proved,
           many.proved / one.proved);
    print_both(beyond(&t[0], &t[1]), 1e-3, 3);
    printf("\n");
    fflush(stdout);
}

static void batches(void)
{
    static const int rules[] = {0, 64}, lines[] = {16, 256, 1024};
    printf("\n| lines | rules | 500 questions in one call, ms | 500 calls, ms | ratio "
           "| one call beyond the check: proved, ms | plain C, ms | ratio |\n"
           "|---|---|---|---|---|---|---|---|\n");
    for (int r = 0; r < 2; r++)
        for (int n = 0; n < 3; n++)
            batch_row(lines[n], rules[r]);
}

int main(int argc, char **argv)
{
    const char *word = argc > 1 ? argv[1] : "";
    make_questions();
    table(word);
    if (strstr("batch", word) != NULL)
        batches();
    return 0;
}
