/* plain.h: the meter access base in plain C, without proofs. The functions take the structs and constants of
 * access_base.h and answer as documents 01 and 02 say. The base is ACCESS_BASE_BYTES lent bytes; nothing is kept between calls,
 * nothing is allocated, and what is no sound base is answered with 2 and left as it is. */
#ifndef PLAIN_H
#define PLAIN_H

#include "../callers/c/access_base.h"

struct access_base_reply plain_create(uint8_t *base, size_t base_length);
bool plain_is_sound(const uint8_t *base, size_t base_length);
struct access_base_reply plain_request(uint8_t *base, size_t base_length, const struct access_base_request *q);
struct access_base_reply plain_may(
    const uint8_t *base, size_t base_length, uint32_t subject, uint32_t mode, uint32_t object, uint32_t instant);
struct access_base_reply plain_when(
    const uint8_t *base, size_t base_length, uint32_t subject, uint32_t mode, uint32_t object, uint32_t *list,
    size_t list_length);
struct access_base_reply plain_batch(
    const uint8_t *base, size_t base_length, const struct access_base_question *questions, size_t count,
    uint8_t *replies, size_t replies_length);
struct access_base_reply plain_report(
    const uint8_t *base, size_t base_length, uint32_t object, char *page, size_t page_length);

#endif
