/* 01's steps on numbers, and on the text and identity, which reading and writing share. */
#ifndef STEPS_H
#define STEPS_H

#include <emmintrin.h>
#include <string.h>

#include "ugbariteyo.h"

enum { SECURITY_FIXED = 16, PROPERTIES_FIXED = 56, PART_MOST = 65535, LABEL_MOST = 500 };
enum { FLAG_AU_AS = 0x0F10, FLAG_EB = 0x20, FLAG_DE = 0x40, FLAG_DP = 0x80, FLAGS_JUDGED = 0x0FFF };
enum { IDENTITY, KEY, SIGNATURE, CERTIFICATE, PROVIDER, SECURITY_PARTS };

typedef struct security {
    uint32_t flags;
    size_t size[SECURITY_PARTS];
    size_t at[SECURITY_PARTS + 1]; /* where each part begins, and the header's length */
} security;

typedef struct properties {
    size_t at;                                 /* where the header begins */
    size_t label, extension, body, allocation; /* in bytes */
    uint32_t class;
    size_t length; /* the section's */
} properties;

static inline uint32_t sender_kind(const security *x)
{
    return x->flags & 15;
}

static inline size_t padded(size_t length)
{
    return (length + 3) & ~(size_t)3;
}

static inline bool identity_size_fits(const security *x)
{
    size_t size = x->size[IDENTITY];
    return sender_kind(x) == 1 ? size - 8 <= 60 && size % 4 == 0 : size == 8 * sender_kind(x);
}

static inline bool provider_size_fits(const security *x)
{
    size_t size = x->size[PROVIDER];
    bool default_provider = (x->flags & FLAG_DE) != 0, signature = x->size[SIGNATURE] != 0;
    if (size == 0)
        return default_provider || !signature;
    return !default_provider && size % 2 == 0 && size >= (signature ? 8 : 6);
}

/* S2 to S8. What comes before the sum bounds every size but the provider's. */
static inline uint32_t security_steps(security *x)
{
    size_t any = x->size[IDENTITY] | x->size[KEY] | x->size[SIGNATURE] | x->size[CERTIFICATE] | x->size[PROVIDER];
    if (sender_kind(x) > 2)
        return UGB_SENDER_KIND;
    if ((x->flags & FLAG_AU_AS) != 0)
        return UGB_AU_OR_AS;
    if (any == 0 || (x->flags & FLAG_DP) == 0)
        return UGB_EMPTY_OR_DP_CLEAR;
    if (x->size[CERTIFICATE] > PART_MOST)
        return UGB_CERTIFICATE_SIZE;
    if (!identity_size_fits(x))
        return UGB_IDENTITY;
    if (!provider_size_fits(x))
        return UGB_PROVIDER;
    x->at[0] = SECURITY_FIXED;
    for (int i = 0; i < SECURITY_PARTS; i++)
        x->at[i + 1] = x->at[i] + padded(x->size[i]);
    return x->size[PROVIDER] > UGB_LIMIT || x->at[SECURITY_PARTS] > UGB_LIMIT ? UGB_ABOVE_THE_LIMIT : UGB_ACCEPTED;
}

/* P3. A class's two top bits choose 16 bits here, its four lowest one of these. */
static inline bool class_is_listed(uint32_t class)
{
    const uint64_t listed = 0x00170EFF00010007;
    return (class & 0x3FF0) == 0 && (listed >> (16 * (class >> 14) + (class & 15)) & 1) != 0;
}

/* P2 to P5. */
static inline uint32_t properties_steps(properties *x)
{
    if (x->label > LABEL_MOST || x->label % 2 != 0)
        return UGB_LABEL_LENGTH;
    if (!class_is_listed(x->class))
        return UGB_CLASS;
    if (x->allocation < x->body || x->allocation > UGB_LIMIT)
        return UGB_ALLOCATION;
    x->length = padded(x->at + PROPERTIES_FIXED + x->label + x->extension + x->body);
    return x->extension > UGB_LIMIT || x->length > UGB_LIMIT ? UGB_ABOVE_THE_LIMIT : UGB_ACCEPTED;
}

static inline uint32_t number16(const uint8_t *at)
{
    uint16_t number;
    memcpy(&number, at, sizeof number);
    return number;
}

static inline uint32_t number32(const uint8_t *at)
{
    uint32_t number;
    memcpy(&number, at, sizeof number);
    return number;
}

static inline __m128i zero_units(const uint8_t *at)
{
    return _mm_cmpeq_epi16(_mm_loadu_si128((const __m128i *)at), _mm_setzero_si128());
}

/* Whether the last of one or more units is zero, and no other. The last two blocks of 8 units may overlap. */
static inline bool is_text(const uint8_t *text, size_t length)
{
    const uint8_t *last = text + length - 2;
    if (number16(last) != 0)
        return false;
    if (last - text < 16) {
        while (text < last && number16(text) != 0)
            text += 2;
        return text == last;
    }
    for (; last - text > 64; text += 64) {
        __m128i front = _mm_or_si128(zero_units(text), zero_units(text + 16));
        __m128i back = _mm_or_si128(zero_units(text + 32), zero_units(text + 48));
        if (_mm_movemask_epi8(_mm_or_si128(front, back)) != 0)
            return false;
    }
    __m128i found = zero_units(last - 16);
    for (; last - text > 16; text += 16)
        found = _mm_or_si128(found, zero_units(text));
    return _mm_movemask_epi8(found) == 0;
}

/* S10. */
static inline bool identity_fits(const security *x, const uint8_t *identity)
{
    return sender_kind(x) != 1 || (identity[0] == 1 && identity[1] == (x->size[IDENTITY] - 8) / 4);
}

/* S10 and S11. */
static inline uint32_t security_content(const security *x, const uint8_t *identity, const uint8_t *provider)
{
    if (!identity_fits(x, identity))
        return UGB_IDENTITY;
    if (x->size[PROVIDER] != 0 && !is_text(provider + 4, x->size[PROVIDER] - 4))
        return UGB_PROVIDER;
    return UGB_ACCEPTED;
}

/* P7. */
static inline uint32_t label_content(const properties *x, const uint8_t *label)
{
    return x->label == 0 || is_text(label, x->label) ? UGB_ACCEPTED : UGB_LABEL;
}

#endif
