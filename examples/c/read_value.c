/* Reads the section in a file, whose body is a single number, and prints the number, or the refusal; then sends the
 * number on in a section of its own and reads that back. `read_value FILE [security]`: the second word says that a
 * SecurityHeader stands first. The status is 1 where there is no number to read, and 2 where there is no file.
 *
 * samples/flux.bin is the section that send_value writes of the number -12.625, a double. */
#include <inttypes.h>
#include <stdio.h>
#include <stdlib.h>

#include "ugbariteyo.h"

static uint8_t input[UGB_LIMIT], section[128];

static void accepted(ugb_refusal refusal)
{
    if (refusal.number == UGB_ACCEPTED)
        return;
    printf("refused %u at %zu: %s\n", (unsigned)refusal.number, refusal.place, ugb_refusal_text(refusal.number));
    exit(1);
}

/* So many digits tell every float from the next; of a NaN the bits tell which. */
static void print_value(const char *what, ugb_body_value value)
{
    printf("%s: BodyType %u, ", what, (unsigned)value.body_type);
    switch (value.body_type) {
    case UGB_VT_I4:
        printf("%" PRId32, value.i32);
        break;
    case UGB_VT_UI4:
        printf("%" PRIu32, value.u32);
        break;
    case UGB_VT_R4:
        printf("%.9g", (double)value.f32);
        break;
    case UGB_VT_R8:
        printf("%.17g", value.f64);
        break;
    }
    printf(" (0x%" PRIx64 ")\n", value.bits);
}

/* The number as the body of a message, whose section goes into `section`. */
static ugb_sent send_value(ugb_body_value value)
{
    static const uint16_t title[] = {'F', 'l', 'u', 'x'};
    uint8_t body[8];
    ugb_output written = ugb_write_value(value, body, sizeof body);
    accepted(written.refusal);
    const ugb_request_parts parts = {.title = {title, 4}, .body = {body, written.length}};
    const ugb_request request = {
        .body_type = {true, value.body_type},
        .body_given = true,
        .allocation_body_size = written.length,
        .time_to_queue = 60,
        .time_to_live = 3600,
    };
    return ugb_send(&request, &parts, section, sizeof section);
}

int main(int argc, char **argv)
{
    FILE *file = argc > 1 ? fopen(argv[1], "rb") : NULL;
    size_t length = file == NULL ? 0 : fread(input, 1, sizeof input, file);
    if (file == NULL || ferror(file)) {
        fprintf(stderr, "usage: read_value FILE [security]\n");
        return 2;
    }
    fclose(file);

    ugb_value_read found = ugb_read_value(input, length, argc > 2);
    accepted(found.refusal);
    print_value("read", found.value);

    ugb_sent sent = send_value(found.value);
    accepted(sent.refusal);
    printf("sent: %zu bytes\n", sent.length);
    found = ugb_read_value(section, sent.length, sent.security_first);
    accepted(found.refusal);
    print_value("read back", found.value);
    return 0;
}
