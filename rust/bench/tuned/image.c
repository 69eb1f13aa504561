#include "put.h"
#include "steps.h"
#include "tuned.h"

enum { HEAD = 4, STRING_MOST = 2048 };

/* Suffixes and their flags, each a bit: the suffix, and 8 more for a system queue. */
enum { NONE = 1, XACTONLY = 1 << 4, SUBQUEUE = 1 << 5 };
enum { JOURNAL = 1 << 9, DEADLETTER = 1 << 10, DEADXACT = 1 << 11, SYSTEM_XACTONLY = 1 << 12 };

typedef struct queue_type {
    uint16_t suffixes;
    uint8_t fixed;        /* the bytes before the string */
    uint8_t string_least; /* in bytes; 0 where there is no string */
} queue_type;

static const queue_type types[] = {
    [UGB_QUEUE_UNKNOWN] = {NONE | JOURNAL | DEADLETTER, 0, 0},
    [UGB_QUEUE_PUBLIC] = {NONE | JOURNAL, 16, 0},
    [UGB_QUEUE_PRIVATE] = {NONE | JOURNAL, 20, 0},
    [UGB_QUEUE_DIRECT] = {NONE | JOURNAL | DEADLETTER | DEADXACT, 0, 4},
    [UGB_QUEUE_MACHINE] = {JOURNAL | DEADLETTER | DEADXACT, 16, 0},
    [UGB_QUEUE_CONNECTOR] = {NONE | XACTONLY | SYSTEM_XACTONLY, 16, 0},
    [UGB_QUEUE_DL] = {NONE, 16, 2},
    [UGB_QUEUE_MULTICAST] = {NONE, 8, 0},
    [UGB_QUEUE_SUBQUEUE] = {NONE | JOURNAL | DEADLETTER | SUBQUEUE, 0, 4},
};

/* 30 and 31. */
static inline uint32_t judge_format(uint32_t kind, uint32_t suffix_and_flags)
{
    if (kind > UGB_QUEUE_SUBQUEUE)
        return UGB_QUEUE_TYPE;
    if ((suffix_and_flags & 0x78) != 0)
        return UGB_QUEUE_SUFFIX;
    uint32_t bit = (suffix_and_flags & 7) + (suffix_and_flags >> 4);
    return (types[kind].suffixes >> bit & 1) != 0 ? UGB_ACCEPTED : UGB_QUEUE_SUFFIX;
}

/* What 32 and 33 say of the bytes behind the fixed ones. */
static inline uint32_t judge_text(uint32_t kind, const uint8_t *text, size_t text_length)
{
    const size_t least = types[kind].string_least;
    if (least == 0)
        return text_length == 0 ? UGB_ACCEPTED : UGB_QUEUE_VALUE;
    if (text_length < least)
        return kind == UGB_QUEUE_DL ? UGB_QUEUE_VALUE : UGB_QUEUE_STRING;
    return text_length <= STRING_MOST && text_length % 2 == 0 && is_text(text, text_length) ? UGB_ACCEPTED
                                                                                            : UGB_QUEUE_STRING;
}

/* 1, then 30 to 33. */
static inline uint32_t judge_read(const uint8_t *s, size_t s_length)
{
    uint32_t number;
    if (s_length < HEAD)
        return UGB_INPUT_SHORT;
    number = judge_format(s[0], s[1]);
    if (number != UGB_ACCEPTED)
        return number;
    size_t at = HEAD + types[s[0]].fixed;
    return s_length < at ? UGB_QUEUE_VALUE : judge_text(s[0], s + at, s_length - at);
}

/* No bytes are at 0. */
static inline ugb_part part_at(size_t start, size_t length)
{
    return (ugb_part){length != 0 ? start : 0, length};
}

void tuned_read_image(ugb_image_read *answer, const uint8_t *s, size_t s_length)
{
    uint32_t number = judge_read(s, s_length);
    if (number != UGB_ACCEPTED) {
        *answer = (ugb_image_read){.refusal.number = number};
        return;
    }
    const ugb_queue_format format = {s[0], s[1]};
    const size_t fixed = types[format.kind].fixed, at = HEAD + fixed;
    answer->refusal = (ugb_refusal){UGB_ACCEPTED, 0};
    answer->format = format;
    answer->fixed = part_at(HEAD, fixed);
    answer->text = part_at(at, s_length - at);
}

/* 30 to 33. */
static inline uint32_t judge_write(ugb_queue_format format, size_t fixed_length, const uint8_t *text,
                                   size_t text_length)
{
    uint32_t number = judge_format(format.kind, format.suffix_and_flags);
    if (number != UGB_ACCEPTED)
        return number;
    return fixed_length != types[format.kind].fixed ? UGB_QUEUE_VALUE : judge_text(format.kind, text, text_length);
}

ugb_output tuned_write_image(ugb_queue_format format, const uint8_t *fixed, size_t fixed_length, const uint8_t *text,
                             size_t text_length, uint8_t *out, size_t out_length)
{
    const size_t length = HEAD + fixed_length + text_length;
    uint32_t number = judge_write(format, fixed_length, text, text_length);
    if (number != UGB_ACCEPTED)
        return (ugb_output){{number, 0}, 0};
    if (length > out_length)
        return (ugb_output){{UGB_OUTPUT_SHORT, 0}, 0};
    put32(out, format.kind | (uint32_t)format.suffix_and_flags << 8);
    put(put(out + HEAD, fixed, fixed_length), text, text_length);
    return (ugb_output){{UGB_ACCEPTED, 0}, length};
}
