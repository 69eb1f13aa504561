/* The same for a day's file that is read in one call: every member of its answer and of each slot that is filled, and
 * every byte of the slots that are not. */
#include "check.h"

enum { SLOTS = UGB_DAY_MOST + 2, LONGEST = 32768 };

/* The table that is lent, what a call fills it with, and how it was before. */
static ugb_day_slot table[SLOTS], wanted[SLOTS], before[SLOTS];

/* So many records lie in the input, one behind the other, up to there. */
static size_t ends[SLOTS + 1];

/* ---- a day whose records differ */

static size_t put_head(size_t at, bool security_first, size_t length)
{
    memcpy(input + at, (const uint8_t[4]){0x57, 0x52, security_first, 0}, 4);
    put(at + 4, 4, (uint32_t)length);
    return at + 8;
}

/* A section without a SecurityHeader at p, and its values; gives where it ends. */
static size_t put_section(size_t p, ugb_day_slot *values)
{
    put_properties(p, (uint8_t)values->label_length, (uint16_t)values->message_class);
    put(p + 32, 4, (uint32_t)values->message_size);
    put(p + 36, 4, (uint32_t)values->message_size);
    put(p + 52, 4, (uint32_t)values->extension_size);
    values->section_length = 56 + 2 * values->label_length + values->extension_size + values->message_size;
    values->section_length = (values->section_length + 3) / 4 * 4;
    return p + values->section_length;
}

/* A SecurityHeader of 20 bytes, with a key of one. */
static size_t put_security_first(size_t at)
{
    memset(input + at, 0, 20);
    input[at] = 0x80;
    input[at + 4] = 1;
    return at + 20;
}

/* The record of that number behind those before it. Of five in turn the second and the third have a SecurityHeader, the
 * third is refused behind it, the fourth has no byte, and behind the section of the fifth its record has three more. */
static void put_record(size_t number)
{
    enum { PLAIN, SECURITY, REFUSED, EMPTY, LONGER } kind = number % 5;
    const bool security_first = kind == SECURITY || kind == REFUSED;
    const size_t start = ends[number] + 8;
    ugb_day_slot slot = {{0, 0}, 0x8000 + number % 8, number % 7, 3 + number % 11, 20 + number % 13, 0};
    size_t end = start;
    if (security_first)
        end = put_security_first(end);
    if (kind != EMPTY)
        end = put_section(end, &slot);
    if (kind == LONGER)
        end += 3;
    slot.section_length += security_first ? 20 : 0;
    if (kind == REFUSED) {
        put(start + 20 + 2, 2, 0x8008);
        slot = (ugb_day_slot){.refusal = {UGB_CLASS, 20 + 2}};
    } else if (kind == EMPTY)
        slot = (ugb_day_slot){.refusal = {UGB_INPUT_SHORT, 0}};
    put_head(ends[number], security_first, end - start);
    wanted[number] = slot;
    ends[number + 1] = end;
}

static void put_day(void)
{
    for (size_t number = 0; number < SLOTS; number++)
        put_record(number);
}

/* ---- what a call answers, and fills */

static void same_slot(ugb_day_slot found, ugb_day_slot want)
{
    same_refusal(found.refusal, want.refusal.number, want.refusal.place);
    SAME(found.message_class, want.message_class);
    SAME(found.label_length, want.label_length);
    SAME(found.extension_size, want.extension_size);
    SAME(found.message_size, want.message_size);
    SAME(found.section_length, want.section_length);
}

/* So many slots of the table are filled; the others are byte for byte as they were. */
static void filled(size_t slots)
{
    for (size_t i = 0; i < slots; i++)
        same_slot(table[i], wanted[i]);
    SAME(memcmp(table + slots, before + slots, (SLOTS - slots) * sizeof *table), 0);
}

static ugb_day read_day(size_t length, size_t slots)
{
    memcpy(table, before, sizeof table);
    return ugb_read_day(input, length, table, slots);
}

/* So many bytes are read into so many slots: those records. */
static void whole(size_t length, size_t slots, size_t records)
{
    ugb_day day = read_day(length, slots);
    same_refusal(day.refusal, UGB_ACCEPTED, 0);
    SAME(day.records, records);
    filled(records);
}

/* The record of that number is bad, and those before it are read. */
static void bad(size_t length, size_t slots, size_t number)
{
    ugb_day day = read_day(length, slots);
    same_refusal(day.refusal, UGB_BAD_RECORD, number);
    DAY(ZERO, day)
    filled(number);
}

/* Too many records: none is read. */
static void too_many(size_t length, size_t slots)
{
    ugb_day day = read_day(length, slots);
    same_refusal(day.refusal, UGB_TOO_MANY_RECORDS, 0);
    DAY(ZERO, day)
    filled(0);
}

/* ---- the checks */

/* Every cut of six records, in tables of no slot and up to eight. */
static void check_cuts(void)
{
    size_t records = 0; /* whole ones */
    for (size_t length = 0; length <= ends[6]; length++) {
        records += length == ends[records + 1];
        for (size_t slots = 0; slots <= 8; slots++)
            if (records > slots)
                too_many(length, slots);
            else if (length == ends[records])
                whole(length, slots, records);
            else
                bad(length, slots, records);
    }
    SAME(records, 6);
}

/* The third record's head is wrong in a byte, or says a length that no record has; what is behind it does not count. */
static void check_heads(void)
{
    static const size_t wrong[] = {0, 1, 2, 3, 6, 7}; /* the other two may be any, up to 32,768 */
    for (size_t i = 0; i < 6; i++) {
        uint8_t *at = input + ends[2] + wrong[i];
        *at ^= 0x44;
        too_many(ends[SLOTS], 1);
        bad(ends[SLOTS], 2, 2);
        bad(ends[SLOTS], SLOTS, 2);
        *at ^= 0x44;
    }
    put_head(ends[2], true, LONGEST + 1);
    bad(sizeof input, SLOTS, 2);
    put_head(ends[2], true, ends[3] - ends[2] - 8);
    whole(ends[3], 3, 3);
}

/* Up to 256 records in as many slots or more; 257 in no table. */
static void check_counts(void)
{
    for (size_t records = UGB_DAY_MOST - 1; records <= UGB_DAY_MOST; records++) {
        too_many(ends[records], records - 1);
        too_many(ends[records] + 1, records - 1);
        for (size_t slots = records; slots <= SLOTS; slots++) {
            whole(ends[records], slots, records);
            bad(ends[records] + 1, slots, records);
        }
    }
    for (size_t slots = 0; slots <= SLOTS; slots++) {
        too_many(ends[UGB_DAY_MOST + 1], slots);
        too_many(ends[UGB_DAY_MOST + 1] + 1, slots);
        too_many(ends[SLOTS], slots);
    }
}

/* No byte, or no slot, behind no pointer. */
static void check_null(void)
{
    memcpy(table, before, sizeof table);
    const ugb_day answers[] = {
        ugb_read_day(NULL, 0, NULL, 0),
        ugb_read_day(NULL, 0, table, SLOTS),
        ugb_read_day(input, 0, NULL, 0),
    };
    for (size_t i = 0; i < 3; i++) {
        same_refusal(answers[i].refusal, UGB_ACCEPTED, 0);
        DAY(ZERO, answers[i])
    }
    filled(0);
    same_refusal(ugb_read_day(input, ends[1], NULL, 0).refusal, UGB_TOO_MANY_RECORDS, 0);
    same_refusal(ugb_read_day(input, ends[2] - 1, NULL, 0).refusal, UGB_TOO_MANY_RECORDS, 0);
    same_refusal(ugb_read_day(input, ends[1] - 1, NULL, 0).refusal, UGB_BAD_RECORD, 0);
}

/* Two of the longest records, whose bytes behind their sections are not read, and one that is longer. */
static void check_longest(void)
{
    size_t at = 0;
    for (size_t number = 0; number < 3; number++) {
        ugb_day_slot values = {{0, 0}, number, 0, 0, LONGEST - 56 - 4 * number, 0};
        put_section(put_head(at, false, LONGEST), &values);
        wanted[number] = values;
        at += 8 + LONGEST;
    }
    whole(at, 3, 3);
    too_many(at, 2);
    bad(at - 1, 2, 2);
    put_head(8 + LONGEST, false, LONGEST + 1);
    bad(at, 2, 1);
}

int main(void)
{
    memset(before, 0xA5, sizeof before);
    put_day();
    check_cuts();
    check_heads();
    check_counts();
    check_null();
    check_longest();
    report();
    return 0;
}
