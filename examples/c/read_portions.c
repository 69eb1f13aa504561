/* Reads the section in a file in portions, as it would come over a slow link, and prints what it carries, or the
 * refusal. `read_portions FILE BYTES [security]`: so many bytes at a time, 1 to 64; the third word says that a
 * SecurityHeader stands first. The status is 1 where the section is refused, and 2 where there is none to read. */
#include <stdio.h>
#include <stdlib.h>

#include "ugbariteyo.h"

/* What there is room for, beside the state. */
static uint8_t portion[64];

static void print_refusal(ugb_refusal refusal)
{
    printf("refused %u at %zu: %s\n", (unsigned)refusal.number, refusal.place, ugb_refusal_text(refusal.number));
}

/* Without the null. Of a unit that is not in ASCII a question mark is printed. */
static void print_label(ugb_bytes label)
{
    printf("label: ");
    for (size_t i = 0; i + 2 < label.length; i += 2)
        putchar(label.bytes[i + 1] == 0 && label.bytes[i] >= ' ' && label.bytes[i] <= '~' ? label.bytes[i] : '?');
    printf("\n");
}

static void print_summary(const ugb_portions *state, const ugb_summary *summary)
{
    printf("class: 0x%04x\n", summary->properties.message_class);
    print_label(ugb_label_held(state, summary));
    printf("provider: type %u, info of %zu bytes\n", (unsigned)summary->security.provider_type,
           summary->security.fields.provider_info_size);
    printf("extension: %zu bytes, body: %zu bytes\n", summary->parts.extension.length, summary->parts.body.length);
    printf("section: %zu bytes\n", summary->parts.section_length);
}

int main(int argc, char **argv)
{
    FILE *file = argc > 2 ? fopen(argv[1], "rb") : NULL;
    unsigned long bytes = argc > 2 ? strtoul(argv[2], NULL, 10) : 0;
    if (file == NULL || bytes == 0 || bytes > sizeof portion) {
        fprintf(stderr, "usage: read_portions FILE BYTES [security]\n");
        return 2;
    }
    ugb_portions state = ugb_start(argc > 3);
    for (size_t length; (length = fread(portion, 1, bytes, file)) != 0;)
        ugb_portion(&state, portion, length);
    if (ferror(file)) {
        perror(argv[1]);
        return 2;
    }
    fclose(file);

    ugb_summarized answer = ugb_finish(&state);
    if (answer.refusal.number != UGB_ACCEPTED) {
        print_refusal(answer.refusal);
        return 1;
    }
    print_summary(&state, &answer.summary);
    return 0;
}
