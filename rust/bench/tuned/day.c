#include "section.h"
#include "tuned.h"

enum { HEAD = 8, SECTION_MOST = 32768 };

/* The bytes of the record at `at`, head and section; 0 where it is bad or cut, or none is left. */
static inline size_t record_size(const uint8_t *at, size_t left)
{
    if (left < HEAD || (number32(at) & ~0x10000u) != 0x5257)
        return 0;
    size_t length = number32(at + 4);
    return length > SECTION_MOST || length > left - HEAD ? 0 : HEAD + length;
}

static inline void fill_slot(ugb_day_slot *slot, const uint8_t *record, size_t size)
{
    security first;
    properties second;
    ugb_refusal refusal = judge(record + HEAD, size - HEAD, record[2] == 1, &first, &second);
    if (refusal.number == UGB_ACCEPTED)
        *slot = (ugb_day_slot){refusal, second.class, second.label / 2, second.extension, second.body, second.length};
    else
        *slot = (ugb_day_slot){.refusal = refusal};
}

/* Counts the whole records first: where they are too many, nothing is filled. */
ugb_day tuned_read_day(const uint8_t *file, size_t file_length, ugb_day_slot *table, size_t slots)
{
    const size_t most = slots < UGB_DAY_MOST ? slots : UGB_DAY_MOST;
    size_t at = 0, records = 0, size;
    for (; (size = record_size(file + at, file_length - at)) != 0; at += size)
        if (records++ == most)
            return (ugb_day){{UGB_TOO_MANY_RECORDS, 0}, 0};
    for (const uint8_t *record = file; record < file + at; record += size, table++) {
        size = HEAD + number32(record + 4); /* the head was looked at */
        fill_slot(table, record, size);
    }
    return at == file_length ? (ugb_day){{UGB_ACCEPTED, 0}, records} : (ugb_day){{UGB_BAD_RECORD, records}, 0};
}
