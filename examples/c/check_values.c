/* The same for bodies that are a number: numbers of every kind and the bit patterns at the edges of floats, read from a
 * section with and without a SecurityHeader, taken of a body alone and written again byte for byte; and every refusal
 * in its order. */
#include <float.h>
#include <math.h>

#include "check.h"

enum { EB = 0x20, BODY_AT = P + 67, MOST_SIZE = 10 };

static const uint32_t kinds[] = {UGB_VT_I4, UGB_VT_UI4, UGB_VT_R4, UGB_VT_R8};
enum { KINDS = 4 };

/* The types beside the four, and those that are one of them in some of their bits. */
static const uint32_t others[] = {0,     1,          2,          6,          7,          8,          17,
                                  18,    20,         30,         31,         259,        260,        261,
                                  275,   0x10003,    0x10005,    0x01000004, 0x03000000, 0x13000000, 0x80000003,
                                  0x800, 0x80000004, 0x80000005, 0x80000013, 0xFFFFFFFC, 0xFFFFFFFF};
enum { OTHERS = sizeof others / sizeof *others };

static size_t size_of(uint32_t body_type)
{
    return body_type == UGB_VT_R8 ? 8 : 4;
}

static bool is_kind(uint32_t body_type)
{
    return body_type == 3 || body_type == 4 || body_type == 5 || body_type == 19;
}

static uint64_t bits_of(const uint8_t *body, size_t size)
{
    uint64_t bits = 0;
    for (size_t i = 0; i < size; i++)
        bits |= (uint64_t)body[i] << (8 * i);
    return bits;
}

/* The section with every part, with this BodyType and a body of so many bytes; gives its length. From P on it is a
 * section without a SecurityHeader. */
static size_t put_section(uint32_t body_type, const uint8_t *body, size_t size)
{
    put_whole();
    put(P + 24, 4, body_type);
    put(P + 32, 4, (uint32_t)size);
    put(P + 36, 4, (uint32_t)size);
    for (size_t i = 0; i < size; i++)
        input[BODY_AT + i] = body[i];
    return (BODY_AT + size + 3) / 4 * 4;
}

/* ---- what a call answers */

static void read_as(ugb_value_read found, uint32_t body_type, uint64_t bits)
{
    same_refusal(found.refusal, UGB_ACCEPTED, 0);
    SAME(found.value.body_type, body_type);
    SAME(found.value.bits, bits);
}

static void not_read(ugb_value_read found, uint32_t number, size_t place)
{
    same_refusal(found.refusal, number, place);
    VALUE(ZERO, found.value)
}

static void written_as(ugb_body_value value, const uint8_t *body, size_t room)
{
    const size_t size = size_of(value.body_type);
    pattern();
    ugb_output found = ugb_write_value(value, out, room);
    if (room < size) {
        refused(found, UGB_OUTPUT_SHORT, 0);
        return;
    }
    written(found, size);
    SAME(memcmp(out, body, size), 0);
}

/* The number that is this body, from each call; it is written again, by its own half of the bits alone. */
static void is_number(uint32_t body_type, const uint8_t *body)
{
    const size_t size = size_of(body_type), length = put_section(body_type, body, size);
    const uint64_t bits = bits_of(body, size);
    ugb_value_read found = ugb_read_value(input, length, true);
    read_as(found, body_type, bits);
    read_as(ugb_read_value(input + P, length - P, false), body_type, bits);
    read_as(ugb_value_of(body_type, body, size), body_type, bits);
    for (size_t room = 0; room <= MOST_SIZE; room++)
        written_as(found.value, body, room);
    if (size == 4)
        found.value.bits |= 0xDEADBEEF00000000;
    written_as(found.value, body, sizeof out);
}

/* A section is answered as reading it says: with its refusal, or by EB, BodyType and MessageSize. Gives the number. */
static uint32_t answered(const uint8_t *s, size_t length, bool security_first)
{
    const ugb_reading reading = ugb_read(s, length, security_first);
    const ugb_summary *summary = &reading.section.summary;
    const uint32_t body_type = summary->properties.body_type;
    const ugb_bytes body = ugb_bytes_of(summary->parts.body, s);
    const ugb_value_read found = ugb_read_value(s, length, security_first);
    uint32_t number = reading.refusal.number;
    if (number == UGB_ACCEPTED && (summary->security.fields.flags & EB) != 0)
        number = UGB_BODY_ENCRYPTED;
    else if (number == UGB_ACCEPTED && !is_kind(body_type))
        number = UGB_BODY_TYPE;
    else if (number == UGB_ACCEPTED && body.length != size_of(body_type))
        number = UGB_BODY_SIZE;
    if (number == UGB_ACCEPTED)
        read_as(found, body_type, bits_of(body.bytes, body.length));
    else
        not_read(found, number, reading.refusal.place);
    return number;
}

/* ---- numbers */

/* As C has them, and their bodies. */
static const struct {
    ugb_body_value value;
    uint8_t body[8];
} numbers[] = {
    {{.body_type = UGB_VT_I4, .i32 = INT32_MIN}, {0, 0, 0, 0x80}},
    {{.body_type = UGB_VT_I4, .i32 = -1}, {0xFF, 0xFF, 0xFF, 0xFF}},
    {{.body_type = UGB_VT_I4, .i32 = 0}, {0}},
    {{.body_type = UGB_VT_I4, .i32 = INT32_MAX}, {0xFF, 0xFF, 0xFF, 0x7F}},
    {{.body_type = UGB_VT_UI4, .u32 = UINT32_MAX}, {0xFF, 0xFF, 0xFF, 0xFF}},
    {{.body_type = UGB_VT_UI4, .u32 = 0x80000000}, {0, 0, 0, 0x80}},
    {{.body_type = UGB_VT_UI4, .u32 = 0x04030201}, {1, 2, 3, 4}},
    {{.body_type = UGB_VT_R4, .f32 = 0.0F}, {0}},
    {{.body_type = UGB_VT_R4, .f32 = -0.0F}, {0, 0, 0, 0x80}},
    {{.body_type = UGB_VT_R4, .f32 = -1.5F}, {0, 0, 0xC0, 0xBF}},
    {{.body_type = UGB_VT_R4, .f32 = INFINITY}, {0, 0, 0x80, 0x7F}},
    {{.body_type = UGB_VT_R4, .f32 = -INFINITY}, {0, 0, 0x80, 0xFF}},
    {{.body_type = UGB_VT_R4, .f32 = FLT_TRUE_MIN}, {1}},
    {{.body_type = UGB_VT_R4, .f32 = -FLT_MIN}, {0, 0, 0x80, 0x80}},
    {{.body_type = UGB_VT_R4, .f32 = FLT_MAX}, {0xFF, 0xFF, 0x7F, 0x7F}},
    {{.body_type = UGB_VT_R8, .f64 = 0.0}, {0}},
    {{.body_type = UGB_VT_R8, .f64 = -0.0}, {0, 0, 0, 0, 0, 0, 0, 0x80}},
    {{.body_type = UGB_VT_R8, .f64 = -1.5}, {0, 0, 0, 0, 0, 0, 0xF8, 0xBF}},
    {{.body_type = UGB_VT_R8, .f64 = INFINITY}, {0, 0, 0, 0, 0, 0, 0xF0, 0x7F}},
    {{.body_type = UGB_VT_R8, .f64 = -INFINITY}, {0, 0, 0, 0, 0, 0, 0xF0, 0xFF}},
    {{.body_type = UGB_VT_R8, .f64 = DBL_TRUE_MIN}, {1}},
    {{.body_type = UGB_VT_R8, .f64 = -DBL_MIN}, {0, 0, 0, 0, 0, 0, 0x10, 0x80}},
    {{.body_type = UGB_VT_R8, .f64 = DBL_MAX}, {0xFF, 0xFF, 0xFF, 0xFF, 0xFF, 0xFF, 0xEF, 0x7F}},
};

static bool same_number(ugb_body_value found, ugb_body_value wanted)
{
    switch (wanted.body_type) {
    case UGB_VT_I4:
        return found.i32 == wanted.i32;
    case UGB_VT_UI4:
        return found.u32 == wanted.u32;
    case UGB_VT_R4:
        return found.f32 == wanted.f32 && signbit(found.f32) == signbit(wanted.f32);
    default:
        return found.f64 == wanted.f64 && signbit(found.f64) == signbit(wanted.f64);
    }
}

static void check_numbers(void)
{
    for (size_t i = 0; i < sizeof numbers / sizeof *numbers; i++) {
        const ugb_body_value value = numbers[i].value;
        is_number(value.body_type, numbers[i].body);
        written_as(value, numbers[i].body, sizeof out);
        ugb_value_read found = ugb_value_of(value.body_type, numbers[i].body, size_of(value.body_type));
        SAME(same_number(found.value, value), true);
    }
}

/* The half of 4 bytes that is not theirs holds anything where only the number was set. */
static void check_half(void)
{
    ugb_body_value value;
    memset(&value, 0xFF, sizeof value);
    value.body_type = UGB_VT_I4;
    value.i32 = INT32_MIN;
    written_as(value, (const uint8_t[4]){0, 0, 0, 0x80}, 4);
    value.body_type = UGB_VT_UI4;
    value.u32 = 7;
    written_as(value, (const uint8_t[4]){7, 0, 0, 0}, 4);
    value.body_type = UGB_VT_R4;
    value.f32 = -0.0F;
    written_as(value, (const uint8_t[4]){0, 0, 0, 0x80}, 4);
}

/* Patterns of 4 bytes and of 8, as floats: zeros, subnormals, normals, infinities, and NaNs, quiet and signalling ones,
 * with payloads, of either sign. */
static const uint64_t patterns[] = {
    0x00000000,         0x00000001,         0x007FFFFF,         0x00800000,         0x3F800000,
    0x7F7FFFFF,         0x7F800000,         0x7F800001,         0x7FA5A5A5,         0x7FBFFFFF,
    0x7FC00000,         0x7FC00001,         0x7FD5A5A5,         0x7FFFFFFF,         0x01020304,
    0x0000000000000001, 0x000FFFFFFFFFFFFF, 0x0010000000000000, 0x3FF0000000000000, 0x7FEFFFFFFFFFFFFF,
    0x7FF0000000000000, 0x7FF0000000000001, 0x7FF00000FFFFFFFF, 0x7FF5A5A5A5A5A5A5, 0x7FF7FFFFFFFFFFFF,
    0x7FF8000000000000, 0x7FF8000000000001, 0x7FFDA5A5A5A5A5A5, 0x7FFFFFFFFFFFFFFF, 0x0102030405060708,
    0x00000000FFFFFFFF, 0x7FFFFFFF00000000,
};

/* Of either sign, in 4 bytes and in 8. */
static void check_patterns(void)
{
    for (size_t i = 0; i < sizeof patterns / sizeof *patterns; i++)
        for (unsigned sign = 0; sign <= 1; sign++)
            for (size_t kind = 0; kind < KINDS; kind++) {
                const size_t size = size_of(kinds[kind]);
                const uint64_t bits = patterns[i] ^ (uint64_t)sign << (8 * size - 1);
                uint8_t body[8];
                for (size_t at = 0; at < 8; at++)
                    body[at] = (uint8_t)(bits >> (8 * at));
                is_number(kinds[kind], body);
            }
}

/* ---- refusals */

static const uint8_t nine[16] = {9, 9, 9, 9, 9, 9, 9, 9, 9, 9, 9, 9, 9, 9, 9, 9};

/* Of a type beside the four no size makes a number, and no output is long enough or too short for it. */
static void check_types(void)
{
    for (size_t i = 0; i < OTHERS; i++) {
        ugb_body_value value = {.body_type = others[i], .bits = 9};
        for (size_t size = 0; size <= MOST_SIZE; size++) {
            size_t length = put_section(others[i], nine, size);
            not_read(ugb_read_value(input, length, true), UGB_BODY_TYPE, 0);
            not_read(ugb_read_value(input + P, length - P, false), UGB_BODY_TYPE, 0);
            not_read(ugb_value_of(others[i], nine, size), UGB_BODY_TYPE, 0);
            pattern();
            refused(ugb_write_value(value, out, size), UGB_BODY_TYPE, 0);
        }
    }
}

/* Sizes up to 10, and those that are 4 or 8 in their lowest byte or two. */
static void check_sizes(void)
{
    static const size_t sizes[] = {0,  1,   2,   3,      4,      5,   6,   7,   8,     9,     10,      12,      16,
                                   64, 260, 264, 0x8004, 0x8008, 514, 518, 520, 65540, 65544, 0x40004, 0x200008};
    static uint8_t body[0x200008];
    for (size_t kind = 0; kind < KINDS; kind++)
        for (size_t i = 0; i < sizeof sizes / sizeof *sizes; i++) {
            const size_t length = put_section(kinds[kind], body, sizes[i]);
            const uint32_t number = sizes[i] == size_of(kinds[kind]) ? UGB_ACCEPTED : UGB_BODY_SIZE;
            SAME(answered(input, length, true), number);
            SAME(answered(input + P, length - P, false), number);
            same_refusal(ugb_value_of(kinds[kind], body, sizes[i]).refusal, number, 0);
        }
}

/* AllocationBodySize says nothing of the number. */
static void check_allocation(void)
{
    static const uint32_t allocations[] = {8, 9, 260, UGB_LIMIT};
    for (size_t kind = 0; kind < KINDS; kind++)
        for (size_t size = 4; size <= 8; size += 4)
            for (size_t i = 0; i < 4; i++) {
                const size_t length = put_section(kinds[kind], nine, size);
                put(P + 36, 4, allocations[i]);
                SAME(answered(input, length, true), size == size_of(kinds[kind]) ? UGB_ACCEPTED : UGB_BODY_SIZE);
            }
}

/* Without a SecurityHeader there is no EB, whatever stands in the bit's place and in PrivacyLevel. */
static void check_without_security(void)
{
    const size_t length = put_section(UGB_VT_I4, nine, 4) - P;
    put(P, 1, 0xFF);
    put(P + 40, 4, 5);
    put(P + 48, 4, 0x6610);
    read_as(ugb_read_value(input + P, length, false), UGB_VT_I4, 0x09090909);
}

/* EB, a type beside the four and a size that is none, in every combination: the first in the order counts. */
static void check_order(void)
{
    for (unsigned faults = 0; faults < 8; faults++)
        for (size_t kind = 0; kind < KINDS; kind++) {
            const bool eb = (faults & 1) != 0, type = (faults & 2) != 0, size = (faults & 4) != 0;
            const uint32_t body_type = type ? 6 : kinds[kind];
            const size_t bytes = size_of(kinds[kind]) + size, length = put_section(body_type, nine, bytes);
            const uint32_t of_body = type ? UGB_BODY_TYPE : size ? UGB_BODY_SIZE : UGB_ACCEPTED;
            put(0, 1, eb ? 0x81 | EB : 0x81);
            same_refusal(ugb_read_value(input, length, true).refusal, eb ? UGB_BODY_ENCRYPTED : of_body, 0);
            SAME(answered(input, length, true), eb ? UGB_BODY_ENCRYPTED : of_body);
            SAME(answered(input + P, length - P, false), of_body);
            same_refusal(ugb_value_of(body_type, nine, bytes).refusal, of_body, 0);
        }
}

/* Each refusal of a section comes first, with its place, also where all three behind it would follow. */
static void check_section_first(void)
{
    static const struct {
        size_t at;
        unsigned width;
        uint32_t wrong;
        ugb_refusal refusal;
    } faults[] = {
        {0, 2, 0x00A3, {UGB_SENDER_KIND, 0}},
        {0, 2, 0x00B1, {UGB_AU_OR_AS, 0}},
        {0, 2, 0x0021, {UGB_EMPTY_OR_DP_CLEAR, 0}},
        {8, 4, 65536, {UGB_CERTIFICATE_SIZE, 8}},
        {17, 1, 1, {UGB_IDENTITY, 2}},
        {46, 2, 0, {UGB_PROVIDER, 46}},
        {12, 4, 0x400002, {UGB_ABOVE_THE_LIMIT, 0}},
        {P + 1, 1, 251, {UGB_LABEL_LENGTH, P + 1}},
        {P + 2, 2, 8, {UGB_CLASS, P + 2}},
        {P + 36, 4, 1, {UGB_ALLOCATION, P + 36}},
        {P + 56, 2, 0, {UGB_LABEL, P + 56}},
        {P + 52, 4, 9, {UGB_INPUT_SHORT, P}},
    };
    for (size_t i = 0; i < sizeof faults / sizeof *faults; i++) {
        put_whole();
        put(0, 2, 0x00A1);
        not_read(ugb_read_value(input, LENGTH, true), UGB_BODY_ENCRYPTED, 0);
        put(faults[i].at, faults[i].width, faults[i].wrong);
        not_read(ugb_read_value(input, LENGTH, true), faults[i].refusal.number, faults[i].refusal.place);
        if (faults[i].at >= P)
            not_read(ugb_read_value(input + P, LENGTH - P, false), faults[i].refusal.number,
                     faults[i].refusal.place - P);
    }
}

/* No byte, behind no pointer. */
static void check_null(void)
{
    const ugb_body_value none = {.body_type = 0}, value = {.body_type = UGB_VT_R8, .f64 = 1};
    for (int security_first = 0; security_first <= 1; security_first++)
        not_read(ugb_read_value(NULL, 0, security_first), UGB_INPUT_SHORT, 0);
    not_read(ugb_value_of(UGB_VT_I4, NULL, 0), UGB_BODY_SIZE, 0);
    not_read(ugb_value_of(0, NULL, 0), UGB_BODY_TYPE, 0);
    pattern();
    refused(ugb_write_value(value, NULL, 0), UGB_OUTPUT_SHORT, 0);
    refused(ugb_write_value(none, NULL, 0), UGB_BODY_TYPE, 0);
}

/* ---- every cut, every bit, and many at random */

/* Bytes behind the section do not count. */
static void check_cuts(void)
{
    const size_t length = put_section(UGB_VT_R8, nine, 8);
    for (size_t end = 0; end < length + 8; end++)
        SAME(answered(input, end, true), end < length ? UGB_INPUT_SHORT : UGB_ACCEPTED);
    for (size_t end = 0; end < length - P + 8; end++)
        SAME(answered(input + P, end, false), end < length - P ? UGB_INPUT_SHORT : UGB_ACCEPTED);
}

/* Each number of 1 to 12 is given but 9, which takes two bits, and each of 60 to 62. */
static void check_bits(void)
{
    uint64_t given = 0;
    for (size_t kind = 0; kind < KINDS; kind++)
        for (size_t bit = 0; bit < 8 * (BODY_AT + 8); bit++) {
            const size_t length = put_section(kinds[kind], nine, size_of(kinds[kind]));
            input[bit / 8] ^= (uint8_t)(1 << bit % 8);
            given |= (uint64_t)1 << answered(input, length, true);
            given |= (uint64_t)1 << answered(input + P, length - P, false);
        }
    SAME(given, (uint64_t)7 << UGB_BODY_TYPE | (0x1FFF ^ 1 << UGB_LABEL_LENGTH));
}

static uint32_t any32(void)
{
    return (uint32_t)rand() ^ (uint32_t)rand() << 16;
}

/* Any bits of any kind; and sections with any of the types, sizes and EB, of which some are damaged. */
static void check_any(void)
{
    uint8_t body[16];
    for (size_t i = 0; i < 100000; i++) {
        const uint32_t kind = kinds[any32() % KINDS];
        const uint32_t body_type = any32() % 4 != 0 ? kind : any32() % 2 != 0 ? others[any32() % OTHERS] : any32();
        const size_t size = any32() % 4 != 0 ? size_of(kind) : any32() % (MOST_SIZE + 1);
        for (size_t at = 0; at < sizeof body; at++)
            body[at] = (uint8_t)any32();
        if (i % 20 == 0)
            is_number(kind, body);
        const size_t length = put_section(body_type, body, size);
        put(0, 1, any32() % 8 == 0 ? 0x81 | EB : 0x81);
        if (any32() % 8 == 0)
            input[any32() % length] ^= (uint8_t)(1 << any32() % 8);
        answered(input, length, true);
        answered(input + P, length - P, false);
    }
}

int main(void)
{
    check_numbers();
    check_half();
    check_patterns();
    check_types();
    check_sizes();
    check_allocation();
    check_without_security();
    check_order();
    check_section_first();
    check_null();
    check_cuts();
    check_bits();
    check_any();
    report();
    return 0;
}
