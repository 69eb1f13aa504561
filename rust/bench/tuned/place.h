/* C-17: the place of a refusal, looked for only where there is one. */
#ifndef PLACE_H
#define PLACE_H

#include "steps.h"

/* Where the first unit begins that breaks the rule of is_text, of units that break it. */
static inline size_t breaking_unit(const uint8_t *text, size_t length)
{
    size_t at = 0;
    while (length - at >= 4 && number16(text + at) != 0)
        at += 2;
    return at;
}

/* The provider info is at `provider`, or where that is NULL, in the section s. */
__attribute__((cold, noinline)) static size_t security_place(uint32_t number, const security *x, const uint8_t *s,
                                                             const uint8_t *provider)
{
    switch (number) {
    case UGB_EMPTY_OR_DP_CLEAR:
        return (x->flags & FLAG_DP) == 0 ? 0 : 2;
    case UGB_CERTIFICATE_SIZE:
        return 8;
    case UGB_IDENTITY:
        return 2;
    case UGB_PROVIDER:
        if (!provider_size_fits(x))
            return 0;
        if (provider == NULL)
            provider = s + x->at[PROVIDER];
        return x->at[PROVIDER] + 4 + breaking_unit(provider + 4, x->size[PROVIDER] - 4);
    default:
        return 0;
    }
}

__attribute__((cold, noinline)) static size_t properties_place(uint32_t number, const properties *x,
                                                               const uint8_t *label)
{
    switch (number) {
    case UGB_LABEL_LENGTH:
        return x->at + 1;
    case UGB_CLASS:
        return x->at + 2;
    case UGB_ALLOCATION:
        return x->at + 36;
    case UGB_LABEL:
        return x->at + PROPERTIES_FIXED + breaking_unit(label, x->label);
    default:
        return x->at;
    }
}

#endif
