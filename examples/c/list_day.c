/* Lists the records of a day's file, of any size. `list_day FILE` */
#include <stdio.h>
#include <string.h>

#include "ugbariteyo.h"

/* The longest record, and a buffer of many. */
enum { LONGEST = 8 + 32768 };
static uint8_t buffer[32 * LONGEST];
static size_t at, end;

/* Has at least the longest record in the buffer, or all that is left of the file. */
static void refill(FILE *file)
{
    if (end - at >= LONGEST || feof(file))
        return;
    memmove(buffer, buffer + at, end - at);
    end -= at;
    at = 0;
    end += fread(buffer + end, 1, sizeof buffer - end, file);
}

/* The place of a refusal counts from the section's first byte. */
static void print_refusal(unsigned long number, ugb_record record)
{
    char words[UGB_WORDS];
    ugb_bytes section = ugb_bytes_of(record.section, buffer + at);
    ugb_field_words(ugb_refused_field(UGB_BYTES(section), record.security_first, record.refusal), words, sizeof words);
    printf("%lu refused %u at %zu (%s): %s\n", number, (unsigned)record.refusal.number, record.refusal.place, words,
           ugb_refusal_text(record.refusal.number));
}

static void print_record(unsigned long number, ugb_record record)
{
    if (record.refusal.number != UGB_ACCEPTED)
        print_refusal(number, record);
    else
        printf("%lu class 0x%04x, label of %u units, extension of %zu bytes, body of %zu, section of %zu\n", number,
               record.message_class, (unsigned)record.label_length, record.extension_size, record.message_size,
               record.section_length);
}

int main(int argc, char **argv)
{
    FILE *file = argc == 2 ? fopen(argv[1], "rb") : NULL;
    if (file == NULL) {
        fprintf(stderr, argc == 2 ? "list_day: cannot open the file\n" : "usage: list_day FILE\n");
        return 2;
    }
    for (unsigned long number = 1;; number++) {
        refill(file);
        if (ferror(file)) {
            fprintf(stderr, "list_day: cannot read the file\n");
            return 2;
        }
        ugb_record record = ugb_next_record(buffer + at, end - at);
        if (record.next == UGB_END)
            return 0;
        if (record.next == UGB_STOP) {
            fprintf(stderr, "list_day: record %lu is wrong or cut\n", number);
            return 1;
        }
        print_record(number, record);
        at += record.size;
    }
}
