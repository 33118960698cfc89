/* The access base for submeters, for C: who may read, switch or configure a meter, from which instant to which.
 *
 * Link with target/staticlib/libffi.a, which `tools/build ffi` writes. Every function is proved against the
 * definitions in crates/model/specs (Answers, Session, Report, Batch, Simple) and crates/records/specs (Records);
 * docs/LIBRARY.md has the contracts, docs/ASSURANCE.md what each rules out.
 *
 * The base is ACCESS_BASE_BYTES bytes that the caller lends; nothing else is kept between calls. Any bytes may be lent,
 * of any length: what is no sound base is refused with 2 and left as it is. No function allocates, and the deepest
 * takes about 102,000 bytes of stack.
 *
 * What the caller owes, since no proof reaches beyond the call: a pointer is not NULL and points to as many elements
 * as the length beside it says, also where that is 0; what one call is lent does not overlap; nobody else writes to it
 * during the call; a bool is 0 or 1.
 */
#ifndef ACCESS_BASE_H
#define ACCESS_BASE_H

#include <stdbool.h>
#include <stddef.h>
#include <stdint.h>

#ifdef __cplusplus
extern "C" {
#endif

#define ACCESS_BASE_BYTES 27936u
/* the last instant, which stands for infinity */
#define ACCESS_BASE_LAST 4294967295u
/* so many pairs always suffice for WHEN */
#define ACCESS_BASE_PAIRS 1100u
/* a buffer for a reply's text has at least so many bytes: they suffice for every reply but WHEN's */
#define ACCESS_BASE_TEXT_LEAST 16u
/* so many bytes always suffice for a reply's text */
#define ACCESS_BASE_TEXT_BYTES 24001u
/* no record is more numbers, and all records of a body together are at most so many */
#define ACCESS_BASE_RECORD_NUMBERS 15u
#define ACCESS_BASE_BODY_NUMBERS 10240u
/* a row of a rights sheet, and what always suffices for a sheet: a row for each of 1,024 lines */
#define ACCESS_BASE_ROW_BYTES 44u
#define ACCESS_BASE_SHEET_BYTES 45056u

/* Kinds of requests, and the fields that each names beside now and requester. Other fields are not looked at. */
enum access_base_kind {
    ACCESS_BASE_NEW = 1,        /* object */
    ACCESS_BASE_GRANT = 2,      /* mode, object, subject, start, end, option */
    ACCESS_BASE_DENY = 3,       /* mode, object, subject, start, end */
    ACCESS_BASE_REVOKE = 4,     /* label */
    ACCESS_BASE_REVOKEP = 5,    /* mode, object, subject, start, end */
    ACCESS_BASE_REVOKEN = 6,    /* mode, object, subject, start, end */
    ACCESS_BASE_ADDRULE = 7,    /* rule, start, end */
    ACCESS_BASE_DROPRULE = 8,   /* label */
    ACCESS_BASE_GRANTADM = 9,   /* object, subject */
    ACCESS_BASE_REVOKEADM = 10, /* object, subject */
    ACCESS_BASE_GRANTREF = 11,  /* object, subject */
    ACCESS_BASE_REVOKEREF = 12  /* object, subject */
};

enum access_base_operator {
    ACCESS_BASE_WHENEVER = 1,
    ACCESS_BASE_ASLONGAS = 2,
    ACCESS_BASE_WHENEVERNOT = 3,
    ACCESS_BASE_UNLESS = 4
};

/* The table of refusals. The lowest number that applies is given, 14 between 8 and 9, and nothing lent is altered. */
enum access_base_refusal {
    ACCESS_BASE_DONE = 0,
    ACCESS_BASE_INVALID_BASE = 2,  /* wrong length or not sound */
    ACCESS_BASE_OUT_OF_RANGE = 3,  /* unknown kind, a field outside its range, or a rule's stars or option do not fit */
    ACCESS_BASE_BEHIND_CLOCK = 4,  /* now is below the clock */
    ACCESS_BASE_BAD_INTERVAL = 5,  /* end below start; or a grant, denial or rule starts before now */
    ACCESS_BASE_NO_SUCH_OBJECT = 6,/* the object (for a rule, either one that is named) does not exist */
    ACCESS_BASE_NO_SUCH_LABEL = 7, /* no line (REVOKE) or rule (DROPRULE) has the label */
    ACCESS_BASE_NOT_PERMITTED = 8, /* not its granter, author or owner, or without a rule's powers */
    ACCESS_BASE_NOT_SUPPORTED = 9, /* some instant of the grant or denial is not covered; the earliest is given */
    ACCESS_BASE_ALREADY_SO = 10,   /* the object exists, or the subject owns it or holds that privilege */
    ACCESS_BASE_NOT_HELD = 11,     /* the privilege to withdraw is not there */
    ACCESS_BASE_NOT_STRATIFIED = 12,/* the rule would close a forbidden circle */
    ACCESS_BASE_FULL = 13,         /* a count or the labels would be passed, or the list, page or buffer is too short */
    ACCESS_BASE_BARRED = 14,       /* a line denies the requester of a grant or denial that object and mode in its span */
    ACCESS_BASE_CIRCULAR = 15      /* the simple engine only: feeding leads from some rule back to it */
};

/* The heading of a base and its five bodies, and the numbers that a record of each is. */
enum access_base_body {
    ACCESS_BASE_HEADING = 0,        /* one record: the clock, the last label, and how many records each body has, 1 to 5 */
    ACCESS_BASE_OBJECTS = 1,        /* object, owner */
    ACCESS_BASE_ADMINISTRATORS = 2, /* object, subject */
    ACCESS_BASE_REFERRERS = 3,      /* object, subject */
    ACCESS_BASE_AUTHORIZATIONS = 4, /* label, grantor, subject, object, mode, negative, option, granted, start, end */
    ACCESS_BASE_RULES = 5           /* label, author, left: subject, mode, object, negative; operator; right: subject, mode,
                                     * object, negative, grantor, option (0 without, 1 with, 2 either); start, end.
                                     * A subject, mode, object or grantor of 0 is the star */
};

/* So many numbers is a record of a body: 0 for a body that there is not. */
static inline uint32_t access_base_width(uint32_t body)
{
    static const uint32_t widths[] = {7, 2, 2, 2, 10, 15};
    return body <= ACCESS_BASE_RULES ? widths[body] : 0;
}

/* One side of a rule. Where any_subject, any_mode or any_object is true the star stands there, and the number is not
 * looked at; a number of 0 is no star and out of range. A star for one of the three is on both sides of a rule or on
 * neither. With starred objects the rule stands for each object that its author owns or administers when a question is
 * put, the same on both sides, and the author needs no powers to add it. */
struct access_base_side {
    bool any_subject;
    uint32_t subject;
    bool any_mode;
    uint32_t mode;
    bool any_object;
    uint32_t object;
    bool negative; /* a denial */
};

/* A rule: the left side is given where the operator says so of the right. A right there counts where it is held
 * and no denial of that subject, object and mode is, whoever gave it; a denial where it is held. Its interval is the
 * request's. */
struct access_base_rule {
    struct access_base_side left;
    uint32_t operation; /* enum access_base_operator */
    struct access_base_side right;
    bool any_grantor;
    uint32_t grantor;
    bool any_option;
    bool with_option;
};

struct access_base_request {
    uint32_t kind; /* enum access_base_kind */
    uint32_t now;
    uint32_t requester;
    uint32_t label;
    uint32_t mode;
    uint32_t object;
    uint32_t subject;
    uint32_t start;
    uint32_t end;
    bool option; /* transferable */
    struct access_base_rule rule;
};

/* A reply. `number` is: for a request done, the authorizations (lines) now in the base; with refusal 9, the
 * earliest uncovered instant of the span; for MAY, 1 if the answer is yes and 0 if it is no; for WHEN, the number of runs;
 * for records, how many; for a rights sheet or a line of text, the bytes written; for a round 0. 0 with any other refusal. */
struct access_base_reply {
    uint32_t refusal; /* enum access_base_refusal; 0 if not refused */
    uint32_t label;   /* the new label of a GRANT, DENY or ADDRULE that was done, or 0 */
    uint32_t number;
};

/* A question of a round. */
struct access_base_question {
    uint32_t subject;
    uint32_t mode;
    uint32_t object;
    uint32_t instant;
};
/* a question is four words and nothing else */
typedef char access_base_question_is_four_words[sizeof(struct access_base_question) == 16 ? 1 : -1];

/* What a question's byte says: no, yes, or refused with the number that is left when this is taken off. */
#define ACCESS_BASE_REPLY_NO 0u
#define ACCESS_BASE_REPLY_YES 1u
#define ACCESS_BASE_REPLY_REFUSED 16u

/* ---- what the archive exports: numbers, truth values, and slices as a pointer and a length. A reply is one number:
 * bits 0 to 15 the refusal, bits 16 to 31 the label, bits 32 to 63 the number. Rather use the functions below. */

uint64_t access_base_create(uint8_t *base, size_t base_length);

/* Whether the bytes are a sound base. */
bool access_base_is_sound(const uint8_t *base, size_t base_length);

uint64_t access_base_request(
    uint8_t *base, size_t base_length, uint32_t kind, uint32_t now, uint32_t requester, uint32_t label, uint32_t mode,
    uint32_t object, uint32_t subject, uint32_t start, uint32_t end, bool option, bool left_any_subject,
    uint32_t left_subject, bool left_any_mode, uint32_t left_mode, bool left_any_object, uint32_t left_object,
    bool left_negative, uint32_t operation, bool right_any_subject, uint32_t right_subject, bool right_any_mode,
    uint32_t right_mode, bool right_any_object, uint32_t right_object, bool right_negative, bool any_grantor,
    uint32_t grantor, bool any_option, bool with_option);

uint64_t access_base_may(
    const uint8_t *base, size_t base_length, uint32_t subject, uint32_t mode, uint32_t object, uint32_t instant);

uint64_t access_base_simple_may(
    const uint8_t *base, size_t base_length, uint32_t subject, uint32_t mode, uint32_t object, uint32_t instant);

uint64_t access_base_when(
    const uint8_t *base, size_t base_length, uint32_t subject, uint32_t mode, uint32_t object, uint32_t *list,
    size_t list_length);

uint64_t access_base_records(
    const uint8_t *base, size_t base_length, uint32_t body, uint32_t first, uint32_t *list, size_t list_length);

uint64_t access_base_report(
    const uint8_t *base, size_t base_length, uint32_t object, uint8_t *page, size_t page_length);

uint64_t access_base_text(
    uint8_t *base, size_t base_length, const uint8_t *line, size_t line_length, uint8_t *out, size_t out_length);

/* Four words a question: subject, mode, object, instant. Words behind the last whole question are not looked at. */
uint64_t access_base_batch(
    const uint8_t *base, size_t base_length, const uint32_t *words, size_t words_length, uint8_t *replies,
    size_t replies_length);

/* ---- the same in C's words */

static inline struct access_base_reply access_base_reply_of(uint64_t packed)
{
    struct access_base_reply r = {
        (uint32_t)(packed & 0xffff), (uint32_t)(packed >> 16 & 0xffff), (uint32_t)(packed >> 32)};
    return r;
}

/* Makes an empty base: clock 0, last label 0, nothing in it. A buffer of another length is refused with 2. */
static inline struct access_base_reply access_base_make(uint8_t *base, size_t base_length)
{
    return access_base_reply_of(access_base_create(base, base_length));
}

/* Carries out one request, or refuses it. */
static inline struct access_base_reply access_base_do(
    uint8_t *base, size_t base_length, const struct access_base_request *q)
{
    const struct access_base_rule *u = &q->rule;
    return access_base_reply_of(access_base_request(
        base, base_length, q->kind, q->now, q->requester, q->label, q->mode, q->object, q->subject, q->start, q->end,
        q->option, u->left.any_subject, u->left.subject, u->left.any_mode, u->left.mode, u->left.any_object,
        u->left.object, u->left.negative, u->operation, u->right.any_subject, u->right.subject, u->right.any_mode,
        u->right.mode, u->right.any_object, u->right.object, u->right.negative, u->any_grantor, u->grantor,
        u->any_option, u->with_option));
}

/* MAY: whether the subject may do it to the object at the instant. Changes nothing. */
static inline struct access_base_reply access_base_ask_may(
    const uint8_t *base, size_t base_length, uint32_t subject, uint32_t mode, uint32_t object, uint32_t instant)
{
    return access_base_reply_of(access_base_may(base, base_length, subject, mode, object, instant));
}

/* MAY by the simple engine (crates/simple), which is there to be read and to compare with: the same reply as above, but for
 * refusal 15 where feeding leads from some rule back to it. It goes from instant to instant and keeps nothing: its time grows
 * with the number of feeding paths, times the instants looked at along each, so it is for short intervals and few rules. */
static inline struct access_base_reply access_base_ask_simple_may(
    const uint8_t *base, size_t base_length, uint32_t subject, uint32_t mode, uint32_t object, uint32_t instant)
{
    return access_base_reply_of(access_base_simple_may(base, base_length, subject, mode, object, instant));
}

/* WHEN: the longest runs of instants where MAY says yes, rising, as pairs (first, last) at the front of the list; the
 * rest of the list is untouched. list_length counts numbers, two a pair. */
static inline struct access_base_reply access_base_ask_when(
    const uint8_t *base, size_t base_length, uint32_t subject, uint32_t mode, uint32_t object, uint32_t *list,
    size_t list_length)
{
    return access_base_reply_of(access_base_when(base, base_length, subject, mode, object, list, list_length));
}

/* Records of a body, from number `first` on, counted from 0, in the base's order: as many as the list has room for, each
 * access_base_width(body) numbers, at the front of the list; the rest of the list is untouched. Refused: 2; 3 if there is
 * no such body or it has fewer than `first` records; 13 if the list has no room for one. The whole base is checked once a
 * call, whatever the list's length: lend a long one. ACCESS_BASE_BODY_NUMBERS suffice for any body. */
static inline struct access_base_reply access_base_read(
    const uint8_t *base, size_t base_length, uint32_t body, uint32_t first, uint32_t *list, size_t list_length)
{
    return access_base_reply_of(access_base_records(base, base_length, body, first, list, list_length));
}

/* The rights sheet of an object: a row of ACCESS_BASE_ROW_BYTES for each line on it, in the base's order, at the front of
 * the page; `number` bytes in all, and the rest of the page is untouched. A row has label, granter, subject, mode, sign,
 * option, start and end in columns of 5, 4, 4, 1, 1, 1, 10 and 10 bytes, right-aligned, with one blank between two columns
 * and a newline last; the last instant is `inf`. No NUL is written. An object without lines needs no page. Refusals: 2,
 * 3, 6, and 13 for a page that is too short. */
static inline struct access_base_reply access_base_write_report(
    const uint8_t *base, size_t base_length, uint32_t object, char *page, size_t page_length)
{
    return access_base_reply_of(access_base_report(base, base_length, object, (uint8_t *)page, page_length));
}

/* A round's questions: the reply to each, as if it were put alone, in its byte of `replies`; bytes past the last
 * question's are untouched. An unsound base is refused with 2, and fewer bytes than questions with 13; then nothing is
 * written. No questions are accepted. Any number of questions may be lent. */
static inline struct access_base_reply access_base_ask_round(
    const uint8_t *base, size_t base_length, const struct access_base_question *questions, size_t count,
    uint8_t *replies, size_t replies_length)
{
    return access_base_reply_of(access_base_batch(
        base, base_length, (const uint32_t *)(const void *)questions, 4 * count, replies, replies_length));
}

/* One line of text, a request or a question as the text session has it, without its newline; any bytes may be lent.
 * The reply's text, with a newline and no NUL, stands at the front of `out` after it, `number` bytes of it; the rest of
 * `out` is untouched. What a request or a question is refused with is in the text: `refused 1` for a line that cannot
 * be read, `refused 2` for bytes that are no sound base, and so on through the table.
 *
 * refusal  when                                                     what is altered
 * 0        the text is written                                      the base as the line says, the front of `out`
 * 13       out_length is below ACCESS_BASE_TEXT_LEAST, or below     nothing: no request is carried out whose reply
 *          what the text takes, which only WHEN's can               is not told
 *
 * ACCESS_BASE_TEXT_LEAST bytes suffice for every line but WHEN, ACCESS_BASE_TEXT_BYTES for every line. */
static inline struct access_base_reply access_base_tell(
    uint8_t *base, size_t base_length, const char *line, size_t line_length, char *out, size_t out_length)
{
    return access_base_reply_of(access_base_text(
        base, base_length, (const uint8_t *)line, line_length, (uint8_t *)out, out_length));
}

#ifdef __cplusplus
}
#endif

#endif
