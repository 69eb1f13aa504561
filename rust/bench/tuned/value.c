#include "section.h"
#include "tuned.h"

/* The bytes of a number of this type; 0 of a type that is none of the four. */
static inline size_t number_size(uint32_t body_type)
{
    const uint32_t in_4_bytes = 1 << UGB_VT_I4 | 1 << UGB_VT_R4 | 1 << UGB_VT_UI4;
    if (body_type == UGB_VT_R8)
        return 8;
    return body_type < 32 && (in_4_bytes >> body_type & 1) != 0 ? 4 : 0;
}

static inline uint64_t number64(const uint8_t *at)
{
    return number32(at) | (uint64_t)number32(at + 4) << 32;
}

static inline ugb_value_read no_value(uint32_t number)
{
    return (ugb_value_read){.refusal.number = number};
}

/* 62, 60 and 61 behind the section's own. */
ugb_value_read tuned_read_value(const uint8_t *s, size_t s_length, bool security_first)
{
    security first;
    properties second;
    ugb_refusal refusal = judge(s, s_length, security_first, &first, &second);
    if (refusal.number != UGB_ACCEPTED)
        return (ugb_value_read){.refusal = refusal};
    const uint8_t *header = s + second.at, *body = header + PROPERTIES_FIXED + second.label + second.extension;
    const uint32_t body_type = number32(header + 24);
    const size_t size = number_size(body_type);
    if ((first.flags & FLAG_EB) != 0)
        return no_value(UGB_BODY_ENCRYPTED);
    if (size == 0)
        return no_value(UGB_BODY_TYPE);
    if (second.body != size)
        return no_value(UGB_BODY_SIZE);
    return (ugb_value_read){.value = {body_type, {.bits = size == 8 ? number64(body) : number32(body)}}};
}
