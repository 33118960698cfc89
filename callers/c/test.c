/* Tests of the boundary in C: that every field of the header's structs arrives where the base's bytes have it, that
 * replies come apart rightly, and that odd lengths and unsound bytes are refused and untouched. Ends with 0 if all
 * hold. */
#include <stdio.h>
#include <string.h>

#include "access_base.h"

static uint8_t base[ACCESS_BASE_BYTES + 1], before[ACCESS_BASE_BYTES + 1];
static int checks, failures;

static void expect(int holds, const char *what)
{
    checks++;
    if (!holds) {
        failures++;
        printf("does not hold: %s\n", what);
    }
}

static int is(struct access_base_reply r, uint32_t refusal, uint32_t label, uint32_t number)
{
    return r.refusal == refusal && r.label == label && r.number == number;
}

static int untouched(void)
{
    return memcmp(base, before, sizeof base) == 0;
}

static struct access_base_reply order(struct access_base_request q)
{
    return access_base_do(base, ACCESS_BASE_BYTES, &q);
}

#define ORDER(...) order((struct access_base_request){__VA_ARGS__})

/* Each field of a grant and of a rule is another number, and is found in its own place. */
static void fields(void)
{
    static const uint8_t line[24] = {1, 0, 1, 0, 0x34, 0x02, 7, 0, 5,    2,    0,    0,
                                     6, 0, 0, 0, 0x11, 0,    0, 0, 0x78, 0x56, 0x34, 0x12};
    static const uint8_t rule[28] = {2,    0, 1, 0, 0, 0, 7, 0, 0,    0, 8, 0, 0x45, 0x01,
                                     3,    4, 3, 3, 0, 0, 9, 0, 0, 0, 10, 0, 0, 0};
    static const uint8_t named[28] = {3,    0, 1, 0, 0x56, 0x01, 8, 0, 0x57, 0x02, 7, 0, 0,    0,
                                      0,    0, 4, 8, 0,    0,    9, 0, 0,    0,    10, 0, 0,  0};
    static const uint8_t option[28] = {4, 0, 1, 0, 2, 0, 7, 0, 3, 0, 8, 0, 0,  0,
                                       1, 1, 1, 4, 0, 0, 9, 0, 0, 0, 10, 0, 0, 0};
    access_base_make(base, ACCESS_BASE_BYTES);
    expect(is(ORDER(.kind = ACCESS_BASE_NEW, .now = 5, .requester = 1, .object = 7), 0, 0, 0), "NEW 7");
    expect(is(ORDER(.kind = ACCESS_BASE_NEW, .now = 5, .requester = 1, .object = 8), 0, 0, 0), "NEW 8");
    expect(is(ORDER(.kind = ACCESS_BASE_GRANT, .now = 6, .requester = 1, .mode = 5, .object = 7, .subject = 0x234,
                    .start = 0x11, .end = 0x12345678, .option = true), 0, 1, 1), "GRANT");
    expect(memcmp(base + 40, line, sizeof line) == 0, "the line's bytes");
    expect(is(ORDER(.kind = ACCESS_BASE_ADDRULE, .now = 8, .requester = 1, .start = 9, .end = 10,
                    .rule = {.left = {.any_subject = true, .mode = 3, .object = 7, .negative = true},
                             .operation = ACCESS_BASE_WHENEVERNOT,
                             .right = {.any_subject = true, .mode = 4, .object = 8, .negative = true},
                             .grantor = 0x145}), 0, 2, 1), "ADDRULE with starred subjects");
    expect(memcmp(base + 64, rule, sizeof rule) == 0, "the starred rule's bytes");
    expect(is(ORDER(.kind = ACCESS_BASE_ADDRULE, .now = 8, .requester = 1, .start = 9, .end = 10,
                    .rule = {.left = {.subject = 0x156, .any_mode = true, .object = 8},
                             .operation = ACCESS_BASE_UNLESS,
                             .right = {.subject = 0x257, .any_mode = true, .object = 7},
                             .any_grantor = true, .any_option = true}), 0, 3, 1), "ADDRULE with starred modes");
    expect(memcmp(base + 92, named, sizeof named) == 0, "the other rule's bytes");
    expect(is(ORDER(.kind = ACCESS_BASE_ADDRULE, .now = 8, .requester = 1, .start = 9, .end = 10,
                    .rule = {.left = {.subject = 2, .mode = 1, .object = 7},
                             .operation = ACCESS_BASE_WHENEVER,
                             .right = {.subject = 3, .mode = 1, .object = 8},
                             .any_grantor = true, .with_option = true}), 0, 4, 1), "ADDRULE with the option");
    expect(memcmp(base + 120, option, sizeof option) == 0, "the rule with the option");
    expect(access_base_is_sound(base, ACCESS_BASE_BYTES), "what requests leave is sound");
    expect(is(ORDER(.kind = ACCESS_BASE_DROPRULE, .now = 8, .requester = 1, .label = 4), 0, 0, 1), "DROPRULE 4");
}

/* A rule with starred objects, by one who has no meter: the objects' numbers are not looked at, the bytes have 0 there. */
static void starred_objects(void)
{
    static const uint8_t starred[28] = {1, 0, 0x45, 0x01, 2, 0, 0, 0, 3,  0, 0, 0, 0, 0,
                                        1, 4, 1,    8,    0, 0, 9, 0, 0,  0, 10, 0, 0, 0};
    static const uint32_t numbers[] = {1, 0x145, 2, 1, 0, 0, ACCESS_BASE_WHENEVER, 3, 4, 0, 0, 0, 2, 9, 10};
    uint32_t list[15];
    access_base_make(base, ACCESS_BASE_BYTES);
    for (int side = 0; side < 4; side++) {
        struct access_base_side left = {.subject = 2, .mode = 1, .object = 7, .any_object = (side & 1) != 0};
        struct access_base_side right = {.subject = 3, .mode = 4, .object = 0, .any_object = (side & 2) != 0};
        static const uint32_t wanted[] = {ACCESS_BASE_OUT_OF_RANGE, ACCESS_BASE_OUT_OF_RANGE, ACCESS_BASE_OUT_OF_RANGE, 0};
        expect(is(ORDER(.kind = ACCESS_BASE_ADDRULE, .now = 8, .requester = 0x145, .start = 9, .end = 10,
                        .rule = {.left = left, .operation = ACCESS_BASE_WHENEVER, .right = right, .any_grantor = true,
                                 .any_option = true}), wanted[side], side == 3, 0), "an object of 0, one star, two stars");
    }
    expect(memcmp(base + 32, starred, sizeof starred) == 0, "the bytes of a rule with starred objects");
    expect(access_base_is_sound(base, ACCESS_BASE_BYTES), "it is sound without any object");
    expect(is(access_base_read(base, ACCESS_BASE_BYTES, ACCESS_BASE_RULES, 0, list, 15), 0, 0, 1), "one rule");
    expect(memcmp(list, numbers, sizeof numbers) == 0, "its numbers, 0 for the star");
    ORDER(.kind = ACCESS_BASE_NEW, .now = 8, .requester = 1, .object = 7);
    ORDER(.kind = ACCESS_BASE_GRANT, .now = 8, .requester = 1, .mode = 4, .object = 7, .subject = 3, .start = 8, .end = 20);
    expect(is(access_base_ask_may(base, ACCESS_BASE_BYTES, 2, 1, 7, 9), 0, 0, 0), "a meter that is not the author's");
    ORDER(.kind = ACCESS_BASE_GRANTADM, .now = 8, .requester = 1, .object = 7, .subject = 0x145);
    expect(is(access_base_ask_may(base, ACCESS_BASE_BYTES, 2, 1, 7, 9), 0, 0, 1), "one that he administers");
    expect(is(access_base_ask_simple_may(base, ACCESS_BASE_BYTES, 2, 1, 7, 9), 0, 0, 1), "by the simple engine too");
    expect(is(ORDER(.kind = ACCESS_BASE_REVOKEADM, .now = 8, .requester = 1, .object = 7, .subject = 0x145), 0, 0, 1),
           "REVOKEADM");
    expect(is(access_base_ask_may(base, ACCESS_BASE_BYTES, 2, 1, 7, 9), 0, 0, 0), "and no longer administers");
    expect(is(access_base_read(base, ACCESS_BASE_BYTES, ACCESS_BASE_RULES, 0, list, 15), 0, 0, 1), "the rule is there still");
}

/* The instant with 9, the two answers of MAY, the runs of WHEN in lists of several lengths. */
static void replies(void)
{
    uint32_t list[5] = {90, 91, 92, 93, 94};
    access_base_make(base, ACCESS_BASE_BYTES);
    ORDER(.kind = ACCESS_BASE_NEW, .now = 5, .requester = 1, .object = 7);
    ORDER(.kind = ACCESS_BASE_GRANT, .now = 5, .requester = 1, .mode = 1, .object = 7, .subject = 2, .start = 10,
          .end = 20, .option = true);
    ORDER(.kind = ACCESS_BASE_GRANT, .now = 5, .requester = 1, .mode = 1, .object = 7, .subject = 2, .start = 30,
          .end = ACCESS_BASE_LAST, .option = true);
    expect(is(ORDER(.kind = ACCESS_BASE_GRANT, .now = 6, .requester = 2, .mode = 1, .object = 7, .subject = 3,
                    .start = 12, .end = 40), ACCESS_BASE_NOT_SUPPORTED, 0, 21), "9 with the earliest uncovered instant");
    expect(is(ORDER(.kind = ACCESS_BASE_DENY, .now = 6, .requester = 2, .mode = 1, .object = 7, .subject = 3,
                    .start = 8, .end = ACCESS_BASE_LAST), ACCESS_BASE_NOT_SUPPORTED, 0, 8), "a denial's, at its start");
    expect(is(ORDER(.kind = ACCESS_BASE_GRANT, .now = 6, .requester = 4, .mode = 1, .object = 7, .subject = 3,
                    .start = 40, .end = 41), ACCESS_BASE_NOT_SUPPORTED, 0, 40), "of one who holds nothing");
    ORDER(.kind = ACCESS_BASE_DENY, .now = 6, .requester = 1, .mode = 1, .object = 7, .subject = 2, .start = 40, .end = 40);
    expect(is(ORDER(.kind = ACCESS_BASE_GRANT, .now = 7, .requester = 2, .mode = 1, .object = 7, .subject = 3,
                    .start = 35, .end = 40), ACCESS_BASE_BARRED, 0, 0), "14 gives no instant");
    ORDER(.kind = ACCESS_BASE_REVOKEN, .now = 7, .requester = 1, .mode = 1, .object = 7, .subject = 2, .start = 0,
          .end = ACCESS_BASE_LAST);
    expect(is(access_base_ask_may(base, ACCESS_BASE_BYTES, 2, 1, 7, 20), 0, 0, 1), "MAY yes");
    expect(is(access_base_ask_may(base, ACCESS_BASE_BYTES, 2, 1, 7, 21), 0, 0, 0), "MAY no");
    expect(is(access_base_ask_may(base, ACCESS_BASE_BYTES, 2, 1, 8, 21), ACCESS_BASE_NO_SUCH_OBJECT, 0, 0), "MAY 6");
    expect(is(access_base_ask_when(base, ACCESS_BASE_BYTES, 2, 1, 7, list, 3), ACCESS_BASE_FULL, 0, 0), "WHEN 13");
    expect(list[0] == 90 && list[1] == 91 && list[2] == 92, "a short list is untouched");
    expect(is(access_base_ask_when(base, ACCESS_BASE_BYTES, 2, 1, 7, list, 5), 0, 0, 2), "WHEN");
    expect(list[0] == 10 && list[1] == 20 && list[2] == 30 && list[3] == ACCESS_BASE_LAST && list[4] == 94, "the runs");
    expect(is(access_base_ask_when(base, ACCESS_BASE_BYTES, 4, 1, 7, list, 0), 0, 0, 0), "no run needs no list");
}

/* Every number of every body, pages of several lengths, and what is refused. `fields` left the base. */
static void records(void)
{
    static const uint32_t heading[] = {8, 4, 2, 0, 0, 1, 2}, objects[] = {7, 1, 8, 1};
    static const uint32_t line[] = {1, 1, 0x234, 7, 5, 0, 1, 6, 0x11, 0x12345678};
    static const uint32_t rules[] = {2, 1, 0,     3, 7, 1, ACCESS_BASE_WHENEVERNOT, 0,     4, 8, 1, 0x145, 0, 9, 10,
                                     3, 1, 0x156, 0, 8, 0, ACCESS_BASE_UNLESS,      0x257, 0, 7, 0, 0,     2, 9, 10};
    uint32_t list[32];
    size_t length = ACCESS_BASE_BYTES;
    memcpy(before, base, sizeof before);
    memset(list, 0xee, sizeof list);
    expect(is(access_base_read(base, length, ACCESS_BASE_HEADING, 0, list, 8), 0, 0, 1), "the heading");
    expect(memcmp(list, heading, sizeof heading) == 0 && list[7] == 0xeeeeeeee, "its numbers, and nothing behind them");
    expect(is(access_base_read(base, length, ACCESS_BASE_OBJECTS, 0, list, 32), 0, 0, 2), "two objects");
    expect(memcmp(list, objects, sizeof objects) == 0, "their numbers");
    expect(is(access_base_read(base, length, ACCESS_BASE_OBJECTS, 1, list, 32), 0, 0, 1), "the second object");
    expect(memcmp(list, objects + 2, 8) == 0, "its numbers");
    expect(is(access_base_read(base, length, ACCESS_BASE_OBJECTS, 0, list, 3), 0, 0, 1), "as many as there is room for");
    expect(is(access_base_read(base, length, ACCESS_BASE_OBJECTS, 2, list, 32), 0, 0, 0), "none behind the last");
    expect(is(access_base_read(base, length, ACCESS_BASE_ADMINISTRATORS, 0, list, 2), 0, 0, 0), "no administrator");
    expect(is(access_base_read(base, length, ACCESS_BASE_REFERRERS, 0, list, 2), 0, 0, 0), "no referrer");
    expect(is(access_base_read(base, length, ACCESS_BASE_AUTHORIZATIONS, 0, list, 10), 0, 0, 1), "the line");
    expect(memcmp(list, line, sizeof line) == 0, "its numbers");
    memset(list, 0xee, sizeof list);
    expect(is(access_base_read(base, length, ACCESS_BASE_RULES, 0, list, 31), 0, 0, 2), "two rules");
    expect(memcmp(list, rules, sizeof rules) == 0 && list[30] == 0xeeeeeeee, "their numbers, and nothing behind them");
    expect(is(access_base_read(base, length, 6, 0, list, 32), ACCESS_BASE_OUT_OF_RANGE, 0, 0), "no such body");
    expect(is(access_base_read(base, length, ACCESS_BASE_RULES, 3, list, 32), ACCESS_BASE_OUT_OF_RANGE, 0, 0), "past it");
    expect(is(access_base_read(base, length, ACCESS_BASE_RULES, 0, list, 14), ACCESS_BASE_FULL, 0, 0), "no room");
    expect(is(access_base_read(base, length, ACCESS_BASE_RULES, 0, list, 0), ACCESS_BASE_FULL, 0, 0), "no list at all");
    expect(memcmp(list, rules, sizeof rules) == 0 && untouched(), "and all is untouched");
    for (uint32_t body = 0; body < 6; body++)
        expect(access_base_width(body) <= ACCESS_BASE_RECORD_NUMBERS, "no record is longer");
}

static char out[ACCESS_BASE_TEXT_BYTES];

/* A line in a buffer of so many bytes: the refusal, and the text that is at its front; what is behind is untouched. */
static int tells(size_t length, const char *line, uint32_t refusal, const char *text)
{
    struct access_base_reply r;
    size_t n = strlen(text);
    memset(out, '#', sizeof out);
    r = access_base_tell(base, ACCESS_BASE_BYTES, line, strlen(line), out, length);
    if (!is(r, refusal, 0, (uint32_t)n) || memcmp(out, text, n) != 0)
        return 0;
    for (size_t i = n; i < sizeof out; i++)
        if (out[i] != '#')
            return 0;
    return 1;
}

/* Session S line by line, and buffers that just suffice or just do not. */
static void texts(void)
{
    static const char *const session[][2] = {
        {"4 1 NEW 7", "done 0 0\n"},
        {"4 1 GRANTADM 7 5", "done 0 0\n"},
        {"5 1 GRANT 1 7 2 50 200 y", "done 1 1\n"},
        {"50 5 GRANT 1 7 2 80 150 y", "done 2 2\n"},
        {"55 2 GRANT 1 7 3 55 180 y", "done 3 3\n"},
        {"60 3 DENY 1 7 4 60 70", "done 4 4\n"},
        {"61 1 REVOKEP 1 7 2 60 200", "done 0 4\n"},
        {"MAY 3 1 7 79", "no\n"},
        {"WHEN 3 1 7", "55-59 80-150\n"},
        {"61 3 GRANT 1 7 9 61 90 n", "refused 9\n"},
        {"60 1 REVOKE 1", "refused 4\n"}};
    static const char two[] = "55-59 80-150 4000000000-inf\n";
    access_base_make(base, ACCESS_BASE_BYTES);
    for (size_t i = 0; i < sizeof session / sizeof *session; i++) {
        memcpy(before, base, sizeof before);
        expect(tells(ACCESS_BASE_TEXT_LEAST - 1, session[i][0], ACCESS_BASE_FULL, ""), "15 bytes are refused");
        expect(untouched(), "and the base is untouched");
        expect(tells(ACCESS_BASE_TEXT_LEAST, session[i][0], 0, session[i][1]), session[i][0]);
    }
    expect(tells(ACCESS_BASE_TEXT_LEAST, "", 0, "refused 1\n"), "an empty line cannot be read");
    expect(tells(ACCESS_BASE_TEXT_LEAST, "MAY 3 1 7 79\n", 0, "refused 1\n"), "nor one with a newline");
    expect(tells(0, "", ACCESS_BASE_FULL, ""), "no buffer at all");
    expect(tells(ACCESS_BASE_TEXT_LEAST, "62 1 GRANT 1 7 3 4000000000 inf n", 0, "done 5 5\n"), "GRANT up to inf");
    memcpy(before, base, sizeof before);
    expect(tells(strlen(two) - 1, "WHEN 3 1 7", ACCESS_BASE_FULL, ""), "a buffer one byte short for WHEN");
    expect(tells(strlen(two), "WHEN 3 1 7", 0, two), "one that is exactly as long");
    expect(tells(strlen(two) + 1, "WHEN 3 1 7", 0, two), "one that is a byte longer");
    expect(tells(ACCESS_BASE_TEXT_BYTES, "WHEN 3 1 7", 0, two), "one that always suffices");
    expect(untouched(), "and WHEN leaves the base");
    expect(tells(ACCESS_BASE_TEXT_LEAST, "WHEN 4 1 7", 0, "none\n"), "no run");
}

static char page[ACCESS_BASE_SHEET_BYTES + 4];

/* The sheet of an object on a page of so many bytes: the refusal, and what is on the page; what is behind is untouched. */
static int reports(uint32_t object, size_t length, uint32_t refusal, const char *sheet)
{
    struct access_base_reply r;
    size_t n = strlen(sheet);
    memset(page, '#', sizeof page);
    r = access_base_write_report(base, ACCESS_BASE_BYTES, object, page, length);
    if (!is(r, refusal, 0, (uint32_t)n) || memcmp(page, sheet, n) != 0)
        return 0;
    for (size_t i = n; i < sizeof page; i++)
        if (page[i] != '#')
            return 0;
    return 1;
}

/* The rights sheet after session S, on pages that just suffice or just do not; numbers at their widest; 1,024 lines. */
static void sheets(void)
{
    static const char *const session[] = {
        "4 1 NEW 7", "4 1 GRANTADM 7 5", "5 1 GRANT 1 7 2 50 200 y", "50 5 GRANT 1 7 2 80 150 y",
        "55 2 GRANT 1 7 3 55 180 y", "60 3 DENY 1 7 4 60 70", "61 1 REVOKEP 1 7 2 60 200"};
    static const char sheet[] =
        "    1    1    2 1 + y         50         59\n"
        "    2    5    2 1 + y         80        150\n"
        "    3    2    3 1 + y         55         59\n"
        "    3    2    3 1 + y         80        150\n";
    static const char wide[] =
        "65534 1023 1022 8 - n 4294967294        inf\n"
        "65535 1023 1023 8 + n        inf        inf\n";
    access_base_make(base, ACCESS_BASE_BYTES);
    for (size_t i = 0; i < sizeof session / sizeof *session; i++)
        access_base_tell(base, ACCESS_BASE_BYTES, session[i], strlen(session[i]), out, sizeof out);
    expect(is(ORDER(.kind = ACCESS_BASE_NEW, .now = 61, .requester = 1023, .object = 9), 0, 0, 4), "NEW 9");
    memcpy(before, base, sizeof before);
    expect(reports(7, 176, 0, sheet), "a page that just suffices");
    expect(reports(7, 180, 0, sheet), "a page with four bytes more");
    expect(reports(7, 175, ACCESS_BASE_FULL, ""), "a page one byte short");
    expect(reports(7, 0, ACCESS_BASE_FULL, ""), "no page");
    expect(reports(8, 0, ACCESS_BASE_NO_SUCH_OBJECT, ""), "6 before 13");
    expect(reports(0, 180, ACCESS_BASE_OUT_OF_RANGE, ""), "object 0");
    expect(reports(129, 180, ACCESS_BASE_OUT_OF_RANGE, ""), "object 129");
    expect(reports(4294967295u, 0, ACCESS_BASE_OUT_OF_RANGE, ""), "the highest number");
    expect(reports(9, 0, 0, ""), "an object without lines needs no page");
    expect(untouched(), "and the base is untouched");
    base[8] = 0xfd;
    base[9] = 0xff; /* the last label given is 65,533 */
    expect(is(ORDER(.kind = ACCESS_BASE_DENY, .now = 61, .requester = 1023, .mode = 8, .object = 9, .subject = 1022,
                    .start = 4294967294u, .end = ACCESS_BASE_LAST), 0, 65534, 5), "DENY with label 65,534");
    expect(is(ORDER(.kind = ACCESS_BASE_GRANT, .now = 61, .requester = 1023, .mode = 8, .object = 9, .subject = 1023,
                    .start = ACCESS_BASE_LAST, .end = ACCESS_BASE_LAST), 0, 65535, 6), "GRANT with label 65,535");
    expect(reports(9, 88, 0, wide), "numbers as wide as they get");
    expect(reports(7, 176, 0, sheet), "and the other sheet is as before");
    access_base_make(base, ACCESS_BASE_BYTES);
    ORDER(.kind = ACCESS_BASE_NEW, .now = 0, .requester = 1, .object = 7);
    for (uint32_t i = 0; i < 1024; i++)
        ORDER(.kind = ACCESS_BASE_GRANT, .now = 0, .requester = 1, .mode = 1, .object = 7, .subject = 2, .start = i,
              .end = i);
    expect(is(access_base_write_report(base, ACCESS_BASE_BYTES, 7, page, ACCESS_BASE_SHEET_BYTES - 1),
              ACCESS_BASE_FULL, 0, 0), "a page one byte short for 1,024 lines");
    expect(is(access_base_write_report(base, ACCESS_BASE_BYTES, 7, page, ACCESS_BASE_SHEET_BYTES), 0, 0,
              ACCESS_BASE_SHEET_BYTES), "1,024 lines");
    expect(memcmp(page + 1023 * ACCESS_BASE_ROW_BYTES, " 1024    1    2 1 + n       1023       1023\n", 44) == 0,
           "the last row");
}

/* A round over session S's base: every reply's byte, bytes past the last untouched, and byte lists that just suffice or
 * just do not. */
static void rounds(void)
{
    static const struct access_base_question round[10] = {
        {3, 1, 7, 55}, {3, 1, 7, 60}, {3, 1, 7, 79}, {3, 1, 7, 80}, {4, 1, 7, 65},
        {0, 1, 7, 1}, {3, 9, 7, 1}, {3, 1, 129, 1}, {3, 1, 8, 1}, {1023, 8, 7, ACCESS_BASE_LAST}};
    static const uint8_t expected[12] = {1, 0, 0, 1, 0, 19, 19, 19, 22, 0, '#', '#'};
    static struct access_base_question many[501];
    static uint8_t replies[502];
    memcpy(before, base, sizeof before);
    memset(replies, '#', sizeof replies);
    expect(is(access_base_ask_round(base, ACCESS_BASE_BYTES, round, 10, replies, 9), ACCESS_BASE_FULL, 0, 0)
               && replies[0] == '#' && replies[8] == '#', "nine bytes for ten questions");
    expect(is(access_base_ask_round(base, ACCESS_BASE_BYTES, round, 10, replies, 10), 0, 0, 0)
               && memcmp(replies, expected, 12) == 0, "ten bytes for ten questions");
    memset(replies, '#', sizeof replies);
    expect(is(access_base_ask_round(base, ACCESS_BASE_BYTES, round, 10, replies, 12), 0, 0, 0)
               && memcmp(replies, expected, 12) == 0, "twelve bytes for ten questions");
    for (int i = 0; i < 10; i++) {
        struct access_base_reply r = access_base_ask_may(
            base, ACCESS_BASE_BYTES, round[i].subject, round[i].mode, round[i].object, round[i].instant);
        expect(expected[i] == (r.refusal != 0 ? ACCESS_BASE_REPLY_REFUSED + r.refusal : r.number), "as put alone");
    }
    memset(replies, '#', sizeof replies);
    expect(is(access_base_ask_round(base, ACCESS_BASE_BYTES, round, 0, replies, 0), 0, 0, 0), "no questions");
    expect(is(access_base_ask_round(base, ACCESS_BASE_BYTES, round, 0, replies, 1), 0, 0, 0) && replies[0] == '#',
           "no questions, and a byte");
    for (int i = 0; i < 501; i++)
        many[i] = round[i % 10];
    expect(is(access_base_ask_round(base, ACCESS_BASE_BYTES, many, 501, replies, 502), 0, 0, 0)
               && replies[500] == 1 && replies[499] == 0 && replies[501] == '#', "501 questions");
    expect(is(access_base_reply_of(access_base_batch(
                  base, ACCESS_BASE_BYTES, (const uint32_t *)(const void *)round, 7, replies, 1)), 0, 0, 0)
               && replies[0] == 1, "seven words are one question");
    expect(untouched(), "and a round leaves the base");
}

/* How many of the instants below 130 the simple engine says yes at, where it agrees with MAY at all of them; else -1. */
static int agreed(uint32_t subject)
{
    int yes = 0;
    for (uint32_t t = 0; t < 130; t++) {
        struct access_base_reply r = access_base_ask_may(base, ACCESS_BASE_BYTES, subject, 1, 7, t);
        if (!is(access_base_ask_simple_may(base, ACCESS_BASE_BYTES, subject, 1, 7, t), r.refusal, 0, r.number))
            return -1;
        yes += r.number == 1;
    }
    return yes;
}

/* The simple engine beside MAY: without rules, with each operator, and with rules that feed one another in a circle. */
static void simple(void)
{
    size_t length = ACCESS_BASE_BYTES;
    access_base_make(base, length);
    expect(tells(16, "1 1 NEW 7", 0, "done 0 0\n") && tells(16, "2 1 GRANT 1 7 2 10 40 n", 0, "done 1 1\n")
               && tells(16, "2 1 GRANT 1 7 2 50 100 n", 0, "done 2 2\n"), "what the rules look at");
    expect(agreed(2) == 82 && agreed(3) == 0, "without rules");
    expect(tells(16, "2 1 ADDRULE 3 1 7 + WHENEVER 2 1 7 + * * 10 90", 0, "done 3 2\n") && agreed(3) == 72, "WHENEVER");
    expect(tells(16, "2 1 ADDRULE 4 1 7 + ASLONGAS 2 1 7 + * * 10 90", 0, "done 4 2\n") && agreed(4) == 31, "ASLONGAS");
    expect(tells(16, "2 1 ADDRULE 5 1 7 + WHENEVERNOT 4 1 7 + * * 30 60", 0, "done 5 2\n") && agreed(5) == 20, "NOT");
    expect(tells(16, "2 1 ADDRULE 6 1 7 + UNLESS 5 1 7 + 1 n 30 60", 0, "done 6 2\n") && agreed(6) == 11, "UNLESS");
    expect(tells(16, "2 1 ADDRULE 7 1 7 + UNLESS 4 1 7 + * * 20 60", 0, "done 7 2\n") && agreed(7) == 0, "never");
    expect(tells(16, "2 1 DENY 1 7 3 20 29", 0, "done 8 3\n") && agreed(3) == 62, "a denial");
    memcpy(before, base, sizeof before);
    expect(is(access_base_ask_simple_may(base, length, 2, 9, 7, 20), ACCESS_BASE_OUT_OF_RANGE, 0, 0), "3");
    expect(is(access_base_ask_simple_may(base, length, 2, 1, 8, 20), ACCESS_BASE_NO_SUCH_OBJECT, 0, 0), "6");
    expect(untouched(), "and the simple engine leaves the base");
    /* two rules that feed each other, with intervals apart */
    expect(tells(16, "2 1 ADDRULE 8 1 7 + WHENEVER 9 1 7 + * * 10 20", 0, "done 9 3\n") && agreed(8) == 0, "one of two");
    expect(tells(16, "2 1 ADDRULE 9 1 7 + WHENEVER 8 1 7 + * * 30 40", 0, "done 10 3\n"), "the other");
    expect(is(access_base_ask_simple_may(base, length, 2, 1, 7, 20), ACCESS_BASE_CIRCULAR, 0, 0)
               && is(access_base_ask_may(base, length, 2, 1, 7, 20), 0, 0, 1), "15, whatever is asked, and not from MAY");
    expect(is(access_base_ask_simple_may(base, length, 2, 9, 7, 20), ACCESS_BASE_OUT_OF_RANGE, 0, 0)
               && is(access_base_ask_simple_may(base, length, 2, 1, 8, 20), ACCESS_BASE_NO_SUCH_OBJECT, 0, 0), "15 is last");
    expect(tells(16, "2 1 DROPRULE 10", 0, "done 0 3\n") && agreed(2) == 82, "the circle is gone");
    expect(tells(16, "2 1 ADDRULE * 2 7 + ASLONGAS * 2 7 + * * 10 20", 0, "done 11 3\n")
               && is(access_base_ask_simple_may(base, length, 2, 1, 7, 20), ACCESS_BASE_CIRCULAR, 0, 0), "a rule feeds itself");
}

/* Bytes of another length or that are no base are refused by all, and untouched. */
static void unsound(size_t length)
{
    uint32_t list[2] = {90, 91};
    uint8_t reply = '#';
    struct access_base_request q = {.kind = ACCESS_BASE_NEW, .requester = 1, .object = 7};
    memcpy(before, base, sizeof before);
    expect(!access_base_is_sound(base, length), "such bytes are not sound");
    expect(is(access_base_do(base, length, &q), ACCESS_BASE_INVALID_BASE, 0, 0), "a request gets 2");
    expect(is(access_base_ask_may(base, length, 1, 1, 1, 1), ACCESS_BASE_INVALID_BASE, 0, 0), "MAY gets 2");
    expect(is(access_base_ask_simple_may(base, length, 1, 1, 1, 1), ACCESS_BASE_INVALID_BASE, 0, 0), "so does the simple");
    expect(is(access_base_ask_when(base, length, 1, 1, 1, list, 2), ACCESS_BASE_INVALID_BASE, 0, 0), "WHEN gets 2");
    expect(is(access_base_read(base, length, 9, 9, list, 2), ACCESS_BASE_INVALID_BASE, 0, 0), "records get 2");
    page[0] = '#';
    expect(is(access_base_write_report(base, length, 1, page, sizeof page), ACCESS_BASE_INVALID_BASE, 0, 0)
               && page[0] == '#', "the sheet gets 2");
    expect(is(access_base_ask_round(base, length, &(struct access_base_question){1, 1, 1, 1}, 1, &reply, 1),
              ACCESS_BASE_INVALID_BASE, 0, 0) && reply == '#', "a round gets 2");
    expect(is(access_base_ask_round(base, length, &(struct access_base_question){1, 1, 1, 1}, 0, &reply, 0),
              ACCESS_BASE_INVALID_BASE, 0, 0), "one without questions too");
    expect(is(access_base_ask_round(base, length, &(struct access_base_question){1, 1, 1, 1}, 1, &reply, 0),
              ACCESS_BASE_INVALID_BASE, 0, 0), "2 comes before 13");
    expect(is(access_base_tell(base, length, "WHEN 1 1 1", 10, out, 16), 0, 0, 10)
               && memcmp(out, "refused 2\n", 10) == 0, "the text is `refused 2`");
    if (length != ACCESS_BASE_BYTES)
        expect(is(access_base_make(base, length), ACCESS_BASE_INVALID_BASE, 0, 0), "create gets 2");
    expect(untouched() && list[0] == 90 && list[1] == 91, "and all is untouched");
}

int main(void)
{
    fields();
    records();
    replies();
    starred_objects();
    texts();
    rounds(); /* over the base that the texts leave */
    sheets();
    simple();
    unsound(ACCESS_BASE_BYTES - 1);
    unsound(ACCESS_BASE_BYTES + 1);
    unsound(0);
    base[0] ^= 1;
    unsound(ACCESS_BASE_BYTES);
    printf("C: %d checks, %d do not hold\n", checks, failures);
    return failures != 0;
}
