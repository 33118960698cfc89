#include "layer.h"

const struct layer_body layer_bodies[LAYER_BODIES] = {
    {"heading",
     7,
     {"clock", "last_label", "objects", "administrators", "referrers", "authorizations", "rules"},
     "issssss"},
    {"objects", 2, {"object", "owner"}, "ss"},
    {"administrators", 2, {"object", "subject"}, "ss"},
    {"referrers", 2, {"object", "subject"}, "ss"},
    {"authorizations",
     10,
     {"label", "grantor", "subject", "object", "mode", "negative", "transferable", "granted", "starts", "ends"},
     "sssssbbiii"},
    {"rules",
     15,
     {"label", "author", "left_subject", "left_mode", "left_object", "left_negative", "operator", "right_subject",
      "right_mode", "right_object", "right_negative", "right_grantor", "right_option", "starts", "ends"},
     "sssssbssssbssii"},
};

const char *layer_line_fault(const uint8_t *line, size_t length)
{
    if (length > ACCESS_BASE_LINE_BYTES)
        return "the line has more than 96 bytes: no request is that long, see docs/SESSION.md";
    for (size_t i = 0; i < length; i++)
        if (line[i] < ' ' || line[i] > '~')
            return "the line has a character that is not printable ASCII: one request a line, without its newline";
    return NULL;
}

const char *layer_what_to_do(uint32_t refusal)
{
    switch (refusal) {
    case ACCESS_BASE_INVALID_BASE:
        return "no sound base: give the value that the library made; bytes from elsewhere cannot be repaired, restore a copy";
    case ACCESS_BASE_OUT_OF_RANGE:
        return "off the scale: subjects 1 to 1023, objects 1 to 128, modes 1 to 8";
    case ACCESS_BASE_NO_SUCH_OBJECT:
        return "no such meter in this base: NEW it first";
    default:
        return "see docs/REFUSALS.md";
    }
}

long layer_put(uint8_t *base, size_t base_length, const uint8_t *line, size_t line_length, char *out)
{
    struct access_base_reply r = access_base_reply_of(
        access_base_text(base, base_length, line, line_length, (uint8_t *)out, ACCESS_BASE_TEXT_BYTES));
    if (r.refusal != ACCESS_BASE_DONE || r.number == 0 || r.number > ACCESS_BASE_TEXT_BYTES)
        return -1;
    out[r.number - 1] = 0;
    return (long)r.number - 1;
}
