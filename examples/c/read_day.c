/* Reads a day's file of at most 256 records in one call and lists it as the listing program does. `read_day FILE`: the
 * status is 1 for a file with more records, and 2 where there is none to read. */
#include <stdio.h>
#include <stdlib.h>

#include "ugbariteyo.h"

/* One more of the longest records than are read: of a longer file these bytes are enough to tell. */
static uint8_t bytes[(UGB_DAY_MOST + 1) * (8 + 32768)];
static ugb_day_slot table[UGB_DAY_MOST];

static size_t read_file(const char *name)
{
    FILE *file = fopen(name, "rb");
    size_t length = file == NULL ? 0 : fread(bytes, 1, sizeof bytes, file);
    if (file == NULL || ferror(file)) {
        perror(name);
        exit(2);
    }
    fclose(file);
    return length;
}

static void print_slot(size_t number, ugb_day_slot slot)
{
    if (slot.refusal.number != UGB_ACCEPTED)
        printf("%zu refused %u %zu\n", number, (unsigned)slot.refusal.number, slot.refusal.place);
    else
        printf("%zu ok %zu %zu %zu %zu %zu\n", number, slot.message_class, slot.label_length, slot.extension_size,
               slot.message_size, slot.section_length);
}

int main(int argc, char **argv)
{
    if (argc != 2) {
        fprintf(stderr, "usage: read_day FILE\n");
        return 2;
    }
    ugb_day day = ugb_read_day(bytes, read_file(argv[1]), table, UGB_DAY_MOST);
    if (day.refusal.number == UGB_TOO_MANY_RECORDS) {
        fprintf(stderr, "%s: %s\n", argv[1], ugb_refusal_text(day.refusal.number));
        return 1;
    }
    bool stopped = day.refusal.number == UGB_BAD_RECORD;
    size_t filled = stopped ? day.refusal.place : day.records;
    printf("no answer class label ext body total\n");
    for (size_t number = 0; number < filled; number++)
        print_slot(number, table[number]);
    printf("%s %zu\n", stopped ? "stop" : "end", filled);
    return 0;
}
