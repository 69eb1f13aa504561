/* Reads the section in a file and prints what it carries, or the refusal and its field. `read_section FILE [security]`:
 * the second word says that a SecurityHeader stands first. */
#include <stdio.h>

#include "ugbariteyo.h"

static uint8_t input[UGB_LIMIT];

static void print_part(const char *name, ugb_part part)
{
    printf("%s: %zu bytes at %zu\n", name, part.length, part.start);
}

int main(int argc, char **argv)
{
    FILE *file = argc > 1 ? fopen(argv[1], "rb") : NULL;
    if (file == NULL) {
        fprintf(stderr, "usage: read_section FILE [security]\n");
        return 2;
    }
    size_t length = fread(input, 1, sizeof input, file);
    fclose(file);

    ugb_summarized answer = ugb_summarize(input, length, argc > 2);
    if (answer.refusal.number != UGB_ACCEPTED) {
        char words[UGB_WORDS];
        ugb_field_words(ugb_refused_field(input, length, argc > 2, answer.refusal), words, sizeof words);
        printf("refused %u at %zu (%s): %s\n", (unsigned)answer.refusal.number, answer.refusal.place, words,
               ugb_refusal_text(answer.refusal.number));
        return 1;
    }
    ugb_summary section = answer.summary;
    printf("class: 0x%04x\n", section.properties.message_class);
    printf("label: %u units\n", (unsigned)section.properties.label_length);
    print_part("signature", section.security.parts.signature);
    print_part("extension", section.parts.extension);
    print_part("body", section.parts.body);
    printf("section: %zu bytes\n", section.parts.section_length);
    return 0;
}
