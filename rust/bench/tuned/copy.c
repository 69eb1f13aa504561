#include "section.h"
#include "tuned.h"

static inline void copy_block(uint8_t *to, const uint8_t *from, __m128i kept)
{
    _mm_storeu_si128((__m128i *)to, _mm_and_si128(_mm_loadu_si128((const __m128i *)from), kept));
}

static inline void copy_security(uint8_t *out, const uint8_t *s, const security *x)
{
    const size_t provider = x->at[PROVIDER];
    copy_block(out, s, _mm_set_epi32(-1, -1, -1, (int)0xFFFF0FFF));
    memset(out + SECURITY_FIXED, 0, provider - SECURITY_FIXED);
    if (sender_kind(x) == 1)
        memcpy(out + SECURITY_FIXED, s + SECURITY_FIXED, 2);
    if (x->size[PROVIDER] != 0) {
        memset(out + x->at[SECURITY_PARTS] - 2, 0, 2);
        memcpy(out + provider, s + provider, x->size[PROVIDER]);
    }
}

static inline void copy_properties(uint8_t *out, const uint8_t *header, const properties *x)
{
    const __m128i all = _mm_set1_epi32(-1);
    const size_t kept = PROPERTIES_FIXED + x->label;
    copy_block(out, header, _mm_set_epi32(0, 0, 0, (int)0xFFFFFF0F));
    copy_block(out + 16, header + 16, _mm_set_epi32(0, -1, 0, 0));
    copy_block(out + 32, header + 32, all);
    copy_block(out + 40, header + 40, all);
    memcpy(out + PROPERTIES_FIXED, header + PROPERTIES_FIXED, x->label);
    memset(out + kept, 0, x->length - x->at - kept);
}

ugb_output tuned_support_copy(const uint8_t *s, size_t s_length, bool security_first, uint8_t *out, size_t out_length)
{
    security first;
    properties second;
    ugb_refusal refusal = judge(s, s_length, security_first, &first, &second);
    if (refusal.number != UGB_ACCEPTED)
        return (ugb_output){refusal, 0};
    if (second.length > out_length)
        return (ugb_output){{UGB_OUTPUT_SHORT, 0}, 0};
    if (security_first)
        copy_security(out, s, &first);
    copy_properties(out + second.at, s + second.at, &second);
    return (ugb_output){{UGB_ACCEPTED, 0}, second.length};
}
