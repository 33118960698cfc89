/* Session S of the scope, through the library: each request, then what it was answered. Prints what the text program
 * prints for the same session. */
#include <inttypes.h>
#include <stdio.h>

#include "access_base.h"

static uint8_t base[ACCESS_BASE_BYTES];

static void print_done(struct access_base_reply r)
{
    if (r.refusal != ACCESS_BASE_DONE)
        printf("refused %" PRIu32 "\n", r.refusal);
    else
        printf("done %" PRIu32 " %" PRIu32 "\n", r.label, r.number);
}

static void order(struct access_base_request q)
{
    print_done(access_base_do(base, sizeof base, &q));
}

static void may(uint32_t subject, uint32_t mode, uint32_t object, uint32_t instant)
{
    struct access_base_reply r = access_base_ask_may(base, sizeof base, subject, mode, object, instant);
    if (r.refusal != ACCESS_BASE_DONE)
        printf("refused %" PRIu32 "\n", r.refusal);
    else
        puts(r.number ? "yes" : "no");
}

static void when(uint32_t subject, uint32_t mode, uint32_t object)
{
    static uint32_t list[2 * ACCESS_BASE_PAIRS];
    struct access_base_reply r =
        access_base_ask_when(base, sizeof base, subject, mode, object, list, 2 * ACCESS_BASE_PAIRS);
    if (r.refusal != ACCESS_BASE_DONE) {
        printf("refused %" PRIu32 "\n", r.refusal);
        return;
    }
    if (r.number == 0)
        printf("none");
    for (uint32_t i = 0; i < r.number; i++)
        printf("%s%" PRIu32 "-%" PRIu32, i == 0 ? "" : " ", list[2 * i], list[2 * i + 1]);
    puts("");
}

#define ORDER(...) order((struct access_base_request){__VA_ARGS__})

int main(void)
{
    if (access_base_make(base, sizeof base).refusal != ACCESS_BASE_DONE)
        return 1;
    ORDER(.kind = ACCESS_BASE_NEW, .now = 4, .requester = 1, .object = 7);
    ORDER(.kind = ACCESS_BASE_GRANTADM, .now = 4, .requester = 1, .object = 7, .subject = 5);
    ORDER(.kind = ACCESS_BASE_GRANT, .now = 5, .requester = 1, .mode = 1, .object = 7, .subject = 2, .start = 50,
          .end = 200, .option = true);
    ORDER(.kind = ACCESS_BASE_GRANT, .now = 50, .requester = 5, .mode = 1, .object = 7, .subject = 2, .start = 80,
          .end = 150, .option = true);
    ORDER(.kind = ACCESS_BASE_GRANT, .now = 55, .requester = 2, .mode = 1, .object = 7, .subject = 3, .start = 55,
          .end = 180, .option = true);
    ORDER(.kind = ACCESS_BASE_DENY, .now = 60, .requester = 3, .mode = 1, .object = 7, .subject = 4, .start = 60,
          .end = 70);
    ORDER(.kind = ACCESS_BASE_REVOKEP, .now = 61, .requester = 1, .mode = 1, .object = 7, .subject = 2, .start = 60,
          .end = 200);
    may(3, 1, 7, 79);
    when(3, 1, 7);
    ORDER(.kind = ACCESS_BASE_GRANT, .now = 61, .requester = 3, .mode = 1, .object = 7, .subject = 9, .start = 61,
          .end = 90, .option = false);
    ORDER(.kind = ACCESS_BASE_REVOKE, .now = 60, .requester = 1, .label = 1);
    return 0;
}
