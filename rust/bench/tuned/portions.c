#include "portions.h"
#include "summary.h"

/* The pieces of a section, in the order in which they come. Bytes between them are only counted. */
enum { SECURITY, IDENTITY_START, TYPE, NAME, PROPERTIES, LABEL, REST };

void tuned_start(tuned_portions *x, bool security_first)
{
    x->piece = security_first ? SECURITY : PROPERTIES;
    x->security_first = security_first;
    x->finished = false;
    x->received = x->wanted = x->came = 0;
    x->zero = SIZE_MAX;
    x->first.flags = 0;
    x->first.size[SIGNATURE] = 0;
}

/* ---- A portion */

/* The next piece, and where in the section it begins; 0 will do where it comes at once. */
static inline void next(tuned_portions *x, int piece, size_t wanted)
{
    x->piece = piece;
    x->wanted = wanted;
    x->came = 0;
}

static inline void take_away(ugb_bytes *in, size_t length)
{
    in->bytes += length;
    in->length -= length;
}

/* Holds what is there of a piece; whether it is whole. A whole one of a constant size is copied without a call. */
static inline bool hold(tuned_portions *x, ugb_bytes *in, uint8_t *to, size_t size)
{
    size_t left = size - x->came;
    if (in->length < left) {
        memcpy(to + x->came, in->bytes, in->length);
        x->came += in->length;
        in->length = 0;
        return false;
    }
    if (x->came == 0)
        memcpy(to, in->bytes, size);
    else
        memcpy(to + x->came, in->bytes, left);
    take_away(in, left);
    return true;
}

/* Where the first zero unit begins, else the length, which is even. The last two blocks of 8 units may overlap. */
static inline size_t zero_unit(const uint8_t *text, size_t length)
{
    size_t at = 0;
    if (length < 16) {
        while (at < length && number16(text + at) != 0)
            at += 2;
        return at;
    }
    for (; at < length; at += 16) {
        at = at < length - 16 ? at : length - 16;
        int found = _mm_movemask_epi8(zero_units(text + at));
        if (found != 0)
            return at + (size_t)__builtin_ctz((unsigned)found);
    }
    return length;
}

/* Judges one or more bytes of the name, in which no unit was zero yet. */
static inline void judge_name(tuned_portions *x, const uint8_t *bytes, size_t length)
{
    size_t odd = x->came % 2, whole = (length - odd) & ~(size_t)1;
    if (odd != 0 && x->low == 0 && bytes[0] == 0) {
        x->zero = x->came - 1;
        return;
    }
    size_t zero = zero_unit(bytes + odd, whole);
    if (zero < whole)
        x->zero = x->came + odd + zero;
    x->low = bytes[length - 1];
}

/* Judges what is there of the name; whether it is whole. */
static inline bool pass_name(tuned_portions *x, ugb_bytes *in)
{
    size_t left = x->first.size[PROVIDER] - PROVIDER_TYPE - x->came;
    size_t now = in->length < left ? in->length : left;
    if (x->zero == SIZE_MAX)
        judge_name(x, in->bytes, now);
    x->came += now;
    take_away(in, now);
    return now == left;
}

/* Where there is no provider info, the next header stands in its place. */
static inline void pass_to_provider(tuned_portions *x)
{
    next(x, x->first.size[PROVIDER] != 0 ? TYPE : PROPERTIES, x->first.at[PROVIDER]);
}

/* The fixed bytes came. Of a header that they refuse nothing more is wanted. */
static inline void enter_security(tuned_portions *x)
{
    x->number = judge_security_fixed(x->head, SIZE_MAX, &x->first);
    if (x->number != UGB_ACCEPTED)
        next(x, REST, SIZE_MAX);
    else if (x->first.size[IDENTITY] != 0)
        next(x, IDENTITY_START, 0);
    else
        pass_to_provider(x);
}

static inline size_t label_size(const tuned_portions *x)
{
    return 2 * (size_t)x->properties[1];
}

/* The fixed bytes came. Of a label that P2 refuses nothing is wanted. */
static inline void enter_label(tuned_portions *x)
{
    if (label_size(x) - 1 < LABEL_MOST)
        next(x, LABEL, 0);
    else
        next(x, REST, SIZE_MAX);
}

/* Apart, so that bytes that are only counted take no more than their count, in which these are already. */
__attribute__((noinline)) static void take(tuned_portions *x, ugb_bytes in)
{
    while (in.length != 0 && x->received > x->wanted) {
        size_t at = x->received - in.length;
        if (at < x->wanted)
            take_away(&in, x->wanted - at);
        switch (x->piece) {
        case SECURITY:
            if (hold(x, &in, x->head, SECURITY_FIXED))
                enter_security(x);
            break;
        case IDENTITY_START:
            if (hold(x, &in, x->head + SECURITY_FIXED, IDENTITY_HELD))
                pass_to_provider(x);
            break;
        case TYPE:
            if (hold(x, &in, x->type, PROVIDER_TYPE))
                next(x, NAME, 0);
            break;
        case NAME:
            if (pass_name(x, &in))
                next(x, PROPERTIES, x->first.at[SECURITY_PARTS]);
            break;
        case PROPERTIES:
            if (hold(x, &in, x->properties, PROPERTIES_FIXED))
                enter_label(x);
            break;
        case LABEL:
            if (hold(x, &in, x->properties + PROPERTIES_FIXED, label_size(x)))
                next(x, REST, SIZE_MAX);
            break;
        }
    }
}

ugb_refusal tuned_portion(tuned_portions *x, const uint8_t *bytes, size_t length)
{
    if (x->finished)
        return (ugb_refusal){UGB_AFTER_THE_FINISH, 0};
    if (__builtin_add_overflow(x->received, length, &x->received))
        x->received = SIZE_MAX;
    if (x->received > x->wanted)
        take(x, (ugb_bytes){bytes, length});
    return (ugb_refusal){UGB_ACCEPTED, 0};
}

/* ---- The finish */

/* Where the last unit of the name stands in it. */
static inline size_t last_unit(const tuned_portions *x)
{
    return x->first.size[PROVIDER] - PROVIDER_TYPE - 2;
}

/* S1 to S11, of which S2 to S8 were asked where the fixed bytes came. */
static inline uint32_t judge_security_held(const tuned_portions *x)
{
    if (x->received < SECURITY_FIXED)
        return UGB_INPUT_SHORT;
    if (x->number != UGB_ACCEPTED)
        return x->number;
    if (x->first.at[SECURITY_PARTS] > x->received)
        return UGB_INPUT_SHORT;
    if (!identity_fits(&x->first, x->head + SECURITY_FIXED))
        return UGB_IDENTITY;
    return x->first.size[PROVIDER] != 0 && x->zero != last_unit(x) ? UGB_PROVIDER : UGB_ACCEPTED;
}

/* Of a name that is wrong the unit that breaks the rule: the first zero one, or the last. */
static inline size_t security_place_held(uint32_t number, const tuned_portions *x)
{
    if (number != UGB_PROVIDER || number == x->number)
        return security_place(number, &x->first, NULL, NULL);
    return x->first.at[PROVIDER] + PROVIDER_TYPE + (x->zero < last_unit(x) ? x->zero : last_unit(x));
}

static inline ugb_refusal judge_held(const tuned_portions *x, properties *second)
{
    second->at = 0;
    if (x->security_first) {
        uint32_t number = judge_security_held(x);
        if (number != UGB_ACCEPTED)
            return (ugb_refusal){number, security_place_held(number, x)};
        second->at = x->first.at[SECURITY_PARTS];
    }
    return properties_refusal(x->properties, x->received, second);
}

static inline void fill_held(ugb_summary *to, const tuned_portions *x, const properties *second)
{
    to->security_first = x->security_first;
    if (x->security_first)
        fill_security(&to->security, &x->first, x->head, x->type);
    else
        zero(&to->security, sizeof to->security);
    fill_properties(to, second, x->properties);
    fill_verdicts(to, &x->first, x->properties);
}

void tuned_finish(ugb_summarized *answer, tuned_portions *x)
{
    properties second;
    ugb_refusal refusal = x->finished ? (ugb_refusal){UGB_AFTER_THE_FINISH, 0} : judge_held(x, &second);
    x->finished = true;
    if (refusal.number == UGB_ACCEPTED)
        fill_held(&answer->summary, x, &second);
    else
        zero(answer, sizeof *answer);
    answer->refusal = refusal;
}
