#include "section.h"
#include "tuned.h"

static inline __m128i block(const uint8_t *at)
{
    return _mm_loadu_si128((const __m128i *)at);
}

static inline __m128i either(__m128i a, __m128i b)
{
    return _mm_or_si128(a, b);
}

static inline __m128i four_blocks(const uint8_t *at)
{
    return either(either(block(at), block(at + 16)), either(block(at + 32), block(at + 48)));
}

/* The same at a multiple of 16. */
static inline __m128i four_aligned(const uint8_t *at)
{
    const __m128i *blocks = (const __m128i *)at;
    return either(either(blocks[0], blocks[1]), either(blocks[2], blocks[3]));
}

static inline bool none(__m128i bits)
{
    return _mm_movemask_epi8(_mm_cmpeq_epi8(bits, _mm_setzero_si128())) == 0xFFFF;
}

/* Whether the bytes are zero. 16 bytes or more lie before them, and the last block may begin there. */
static inline bool is_zero(const uint8_t *at, size_t length)
{
    static const uint64_t end[4] = {0, 0, UINT64_MAX, UINT64_MAX};
    const uint8_t *last = at + length - 16;
    __m128i bits = block(last);
    if (length < 16)
        return none(_mm_and_si128(bits, block((const uint8_t *)end + length)));
    if (length >= 256) { /* worth a first block of its own, behind which the others are aligned */
        bits = either(bits, block(at));
        at += -(uintptr_t)at % 16;
        for (; last - at >= 128; at += 128)
            if (!none(either(four_aligned(at), four_aligned(at + 64))))
                return false;
    }
    for (; last - at >= 64; at += 64)
        bits = either(bits, four_blocks(at));
    for (; at < last; at += 16)
        bits = either(bits, block(at));
    return none(bits);
}

/* Without a call for nothing. */
static inline bool is_same(const uint8_t *copy, const uint8_t *s, size_t length)
{
    return length == 0 || memcmp(copy, s, length) == 0;
}

/* The bits in which a block of the copy is not the section's with these kept. */
static inline __m128i wrong(const uint8_t *copy, const uint8_t *s, __m128i kept)
{
    return _mm_xor_si128(block(copy), _mm_and_si128(block(s), kept));
}

static inline bool is_security(const uint8_t *copy, const uint8_t *s, const security *x)
{
    const size_t provider = x->at[PROVIDER], size = x->size[PROVIDER];
    const size_t hidden = SECURITY_FIXED + (sender_kind(x) == 1 ? 2 : 0);
    return none(wrong(copy, s, _mm_set_epi32(-1, -1, -1, (int)0xFFFF0FFF))) &&
           (hidden == SECURITY_FIXED || number16(copy + SECURITY_FIXED) == number16(s + SECURITY_FIXED)) &&
           is_zero(copy + hidden, provider - hidden) && is_same(copy + provider, s + provider, size) &&
           (size % 4 == 0 || number16(copy + provider + size) == 0);
}

static inline bool is_properties(const uint8_t *copy, const uint8_t *header, const properties *x)
{
    const __m128i all = _mm_set1_epi32(-1);
    const size_t hidden = PROPERTIES_FIXED + x->label;
    __m128i front = either(wrong(copy, header, _mm_set_epi32(0, 0, 0, (int)0xFFFFFF0F)),
                           wrong(copy + 16, header + 16, _mm_set_epi32(0, -1, 0, 0)));
    __m128i back = either(wrong(copy + 32, header + 32, all), wrong(copy + 40, header + 40, all));
    return none(either(front, back)) && is_same(copy + PROPERTIES_FIXED, header + PROPERTIES_FIXED, x->label) &&
           is_zero(copy + hidden, x->length - x->at - hidden);
}

bool tuned_is_support_copy(const uint8_t *s, size_t s_length, bool security_first, const uint8_t *copy,
                           size_t copy_length)
{
    security first;
    properties second;
    return judge(s, s_length, security_first, &first, &second).number == UGB_ACCEPTED && copy_length == second.length &&
           (!security_first || is_security(copy, s, &first)) && is_properties(copy + second.at, s + second.at, &second);
}
