/* A section judged: S1 to S11, then P1 to P7. */
#ifndef SECTION_H
#define SECTION_H

#include "place.h"

/* S1 to S9, which look at the fixed bytes only. */
static inline uint32_t judge_security_fixed(const uint8_t *s, size_t s_length, security *x)
{
    uint32_t number;
    if (s_length < SECURITY_FIXED)
        return UGB_INPUT_SHORT;
    x->flags = number16(s) & FLAGS_JUDGED;
    x->size[IDENTITY] = number16(s + 2);
    x->size[KEY] = number16(s + 4);
    x->size[SIGNATURE] = number16(s + 6);
    x->size[CERTIFICATE] = number32(s + 8);
    x->size[PROVIDER] = number32(s + 12);
    number = security_steps(x);
    if (number != UGB_ACCEPTED)
        return number;
    return x->at[SECURITY_PARTS] > s_length ? UGB_INPUT_SHORT : UGB_ACCEPTED;
}

static inline uint32_t judge_security(const uint8_t *s, size_t s_length, security *x)
{
    uint32_t number = judge_security_fixed(s, s_length, x);
    return number != UGB_ACCEPTED ? number : security_content(x, s + SECURITY_FIXED, s + x->at[PROVIDER]);
}

static inline uint32_t judge_properties(const uint8_t *header, size_t s_length, properties *x)
{
    uint32_t number;
    if (s_length - x->at < PROPERTIES_FIXED)
        return UGB_INPUT_SHORT;
    x->label = 2 * (size_t)header[1];
    x->class = number16(header + 2);
    x->body = number32(header + 32);
    x->allocation = number32(header + 36);
    x->extension = number32(header + 52);
    number = properties_steps(x);
    if (number != UGB_ACCEPTED)
        return number;
    if (x->length > s_length)
        return UGB_INPUT_SHORT;
    return label_content(x, header + PROPERTIES_FIXED);
}

static inline ugb_refusal properties_refusal(const uint8_t *header, size_t s_length, properties *x)
{
    uint32_t number = judge_properties(header, s_length, x);
    if (number != UGB_ACCEPTED)
        return (ugb_refusal){number, properties_place(number, x, header + PROPERTIES_FIXED)};
    return (ugb_refusal){UGB_ACCEPTED, 0};
}

/* The refusal, or both headers as the steps leave them; without security the first has no flag and no signature. */
static inline ugb_refusal judge(const uint8_t *s, size_t s_length, bool security_first, security *first,
                                properties *second)
{
    first->flags = 0;
    first->size[SIGNATURE] = 0;
    second->at = 0;
    if (security_first) {
        uint32_t number = judge_security(s, s_length, first);
        if (number != UGB_ACCEPTED)
            return (ugb_refusal){number, security_place(number, first, s, NULL)};
        second->at = first->at[SECURITY_PARTS];
    }
    return properties_refusal(s + second->at, s_length, second);
}

#endif
