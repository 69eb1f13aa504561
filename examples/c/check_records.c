/* The same for the records of a day's file. */
#include "check.h"

/* A record with a MessagePropertiesHeader of that class at the front of the input, and `behind` bytes after it. Every
 * value differs. */
static size_t put_record(uint8_t class_low, size_t behind)
{
    static const uint8_t head[8] = {0x57, 0x52, 0, 0, 72};
    memset(input, 0, 80 + behind);
    memcpy(input, head, sizeof head);
    input[8 + 1] = 3;
    input[8 + 2] = class_low;
    input[8 + 3] = 0x80;
    input[8 + 32] = 2;
    input[8 + 36] = 2;
    input[8 + 52] = 5;
    input[8 + 56] = 'a';
    input[8 + 58] = 'b';
    return 80 + behind;
}

static ugb_record found(size_t length)
{
    ugb_record record = ugb_next_record(input, length);
    SAME(record.next, UGB_FOUND);
    SAME(record.size, 8 + (size_t)input[4]);
    SAME(record.security_first, input[2]);
    same_part(record.section, 8, input[4]);
    return record;
}

static void check_found(void)
{
    ugb_record record = found(put_record(9, 3));
    same_refusal(record.refusal, UGB_ACCEPTED, 0);
    SAME(record.message_class, 0x8009);
    SAME(record.label_length, 3);
    SAME(record.extension_size, 5);
    SAME(record.message_size, 2);
    SAME(record.section_length, 72);
    input[4] = 74; /* bytes behind the section, in its record */
    record = found(83);
    same_refusal(record.refusal, UGB_ACCEPTED, 0);
    SAME(record.section_length, 72);

    record = found(put_record(8, 0));
    same_refusal(record.refusal, UGB_CLASS, 2);
    RECORD_VALUES(ZERO, record)

    put_record(9, 24); /* a SecurityHeader with a key of one byte first: 16 and 4 */
    memmove(input + 28, input + 8, 72);
    memset(input + 8, 0, 20);
    input[2] = 1;
    input[4] = 92;
    input[8] = 0x80;
    input[8 + 4] = 1;
    record = found(100);
    same_refusal(record.refusal, UGB_ACCEPTED, 0);
    SAME(record.message_class, 0x8009);
    SAME(record.section_length, 92);
    input[8 + 20 + 2] = 8;
    record = found(100);
    same_refusal(record.refusal, UGB_CLASS, 20 + 2);
    RECORD_VALUES(ZERO, record)
}

static void nothing(const uint8_t *s, size_t length, enum ugb_next next)
{
    ugb_record record = ugb_next_record(s, length);
    SAME(record.next, next);
    same_refusal(record.refusal, UGB_ACCEPTED, 0);
    RECORD(ZERO, record)
}

/* Each byte of the head wrong, the longest length, and every cut. */
static void check_nothing(void)
{
    static const uint8_t wrong[4] = {0x52, 0x57, 2, 1};
    size_t length = put_record(9, 0);
    for (size_t i = 0; i < 4; i++) {
        uint8_t right = input[i];
        input[i] = wrong[i];
        nothing(input, length, UGB_STOP);
        input[i] = right;
    }
    for (size_t cut = 1; cut < length; cut++)
        nothing(input, cut, UGB_STOP);
    nothing(input, 0, UGB_END);
    nothing(NULL, 0, UGB_END);
    memcpy(input + 4, (const uint8_t[4]){1, 0x80, 0, 0}, 4); /* 32,769 */
    nothing(input, sizeof input, UGB_STOP);
    memcpy(input + 4, (const uint8_t[4]){0, 0x80, 0, 0}, 4);
    SAME(ugb_next_record(input, 8 + 32768).size, 8 + 32768);
    nothing(input, 7 + 32768, UGB_STOP);
}

int main(void)
{
    check_found();
    check_nothing();
    report();
    return 0;
}
