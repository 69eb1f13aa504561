/* The calls that the script `counts` counts. Each is made once, inside `counted`, and then named on standard output
 * behind the bytes that memcpy, memmove and memset moved for it. */
#include <stdio.h>
#include <string.h>

#include "samples.h"

/* ---- What the library calls, by the linker's --wrap */

static size_t moved;

#define WRAPPED(name, type)                                                                                            \
    void *__real_##name(void *, type, size_t);                                                                         \
    void *__wrap_##name(void *, type, size_t);                                                                         \
    void *__wrap_##name(void *to, type from, size_t length)                                                            \
    {                                                                                                                  \
        moved += length;                                                                                               \
        return __real_##name(to, from, length);                                                                        \
    }

WRAPPED(memcpy, const void *)
WRAPPED(memmove, const void *)
WRAPPED(memset, int)

/* ---- The inputs */

enum { ROOM = 8192, HEAD = 8 };

typedef struct input {
    const char *name;
    const given *given; /* what the section is written from */
    uint8_t s[ROOM];    /* the section */
    size_t s_length;
    uint8_t copy[ROOM]; /* its support copy, as long */
    uint8_t out[ROOM];
    size_t out_length;
} input;

static input inputs[] = {
    {.name = "no security, 100-byte body", .given = &plain_sample, .out_length = ROOM},
    {.name = "full security, 250-unit label", .given = &secured_sample, .out_length = ROOM},
    {.name = "no security, 4 KB body", .given = &long_sample, .out_length = ROOM},
};
enum { INPUTS = sizeof inputs / sizeof *inputs, PLAIN = 0, SECURED = 1, LONG = 2 };

/* The body is a number in these. In those above it is of another type, and encrypted where there is security. */
static input numbers[] = {
    {.name = "no security, 8-byte body", .given = &number_sample},
    {.name = "full security, 250-unit label, 8-byte body", .given = &secured_number_sample},
};
enum { NUMBERS = sizeof numbers / sizeof *numbers };

/* A day's file of each section, every record the same, and the table that it is read into. */
static uint8_t days[INPUTS][UGB_DAY_MOST * (HEAD + ROOM)];
static ugb_day_slot table[UGB_DAY_MOST];

/* A section of which so many bytes came, and how many come next. The longest label would end before INSIDE_BODY. */
static ugb_portions state;
static size_t came;
enum { PORTION = 64, INSIDE_BODY = 1024 };

/* ---- The calls */

#define CALL(name, call)                                                                                               \
    static void name(input *i)                                                                                         \
    {                                                                                                                  \
        (void)i;                                                                                                       \
        call;                                                                                                          \
    }

#define SECTION i->s, i->s_length
#define FIRST i->given->values->security_first
#define OUT i->out, i->out_length
#define RECORD (HEAD + i->s_length)
#define DAY days[i - inputs]
#define DAY_LENGTH (UGB_DAY_MOST * RECORD)
#define FLUX ((ugb_body_value){.body_type = UGB_VT_R8, .f64 = -12.625})
#define FORMAT ((ugb_queue_format){image_sample.bytes[0], image_sample.bytes[1]})

CALL(call_read, ugb_read(SECTION, FIRST))
CALL(call_summarize, ugb_summarize(SECTION, FIRST))
CALL(call_same_summary, ugb_same_summary(SECTION, SECTION, FIRST))
CALL(call_label_shown, ugb_label_shown(SECTION, FIRST))
CALL(call_support_copy, ugb_support_copy(SECTION, FIRST, OUT))
CALL(call_check_copy, ugb_is_support_copy(SECTION, FIRST, i->copy, i->s_length))
CALL(call_check_cut_copy, ugb_is_support_copy(SECTION, FIRST, i->copy, i->s_length - 1))
CALL(call_write, ugb_write_section(i->given->values, &i->given->parts, OUT))
CALL(call_read_value, ugb_read_value(SECTION, FIRST))
CALL(call_write_value, ugb_write_value(FLUX, OUT))
CALL(call_next_record, ugb_next_record(DAY, RECORD))
CALL(call_read_day, ugb_read_day(DAY, DAY_LENGTH, table, UGB_DAY_MOST))
CALL(call_read_long_day, ugb_read_day(DAY, DAY_LENGTH, table, UGB_DAY_MOST - 1))
CALL(call_read_cut_day, ugb_read_day(DAY, DAY_LENGTH - 1, table, UGB_DAY_MOST))
CALL(call_start, ugb_start(FIRST))
CALL(call_portion, ugb_portion(&state, i->s + came, PORTION))
CALL(call_finish, ugb_finish(&state))
CALL(call_send, send_sample(OUT))
CALL(call_defaulted, defaulted_sample())
CALL(call_read_image, ugb_read_image(image_sample.bytes, image_sample.length))
CALL(call_read_cut_image, ugb_read_image(image_sample.bytes, image_sample.length - 2))
CALL(call_write_image, ugb_write_image(FORMAT, NULL, 0, image_sample.bytes + 4, image_sample.length - 4, OUT))

typedef void call(input *i);

/* What happens in here is counted. */
__attribute__((noipa)) static void counted(call *call, input *i)
{
    call(i);
}

static void count(const char *what, const char *of, call *call, input *i)
{
    moved = 0;
    counted(call, i);
    printf("%zu %s, %s\n", moved, what, of);
}

static void count_sections(const char *what, call *call)
{
    for (int i = 0; i < INPUTS; i++)
        count(what, inputs[i].name, call, &inputs[i]);
}

/* A call on a section of which so many bytes came. */
static void count_behind(size_t bytes, const char *what, const char *of, call *call, input *i)
{
    came = bytes;
    state = ugb_start(FIRST);
    ugb_portion(&state, i->s, came);
    count(what, of, call, i);
}

/* What comes is counted, judged, held, and counted again. */
static void count_portions(void)
{
    input *secured = &inputs[SECURED];
    ugb_summary x = ugb_summarize(secured->s, secured->s_length, true).summary;
    size_t certificate = x.security.parts.sender_cert.start, name = x.security.parts.provider_info.start + 4;
    count("portions", "start", call_start, secured);
    count_behind(certificate, "portions", "64 bytes of the certificate", call_portion, secured);
    count_behind(name, "portions", "64 bytes of the provider name", call_portion, secured);
    count_behind(x.parts.label.start, "portions", "64 bytes of the label", call_portion, secured);
    count_behind(INSIDE_BODY, "portions", "64 bytes of the body", call_portion, &inputs[LONG]);
    for (input *i = inputs; i < inputs + INPUTS; i++)
        count_behind(i->s_length, "portions, finish", i->name, call_finish, i);
}

/* A byte of the secured section is made wrong and right again. */
static void count_refused(const char *what, const char *step, call *call, size_t at, uint8_t wrong)
{
    uint8_t *byte = &inputs[SECURED].s[at], right = *byte;
    *byte = wrong;
    count(what, step, call, &inputs[SECURED]);
    *byte = right;
}

static void make_section(input *i)
{
    i->s_length = ugb_write_section(i->given->values, &i->given->parts, i->s, ROOM).length;
    ugb_support_copy(SECTION, FIRST, i->copy, ROOM);
}

static void make_day(input *i)
{
    uint8_t head[HEAD] = {0x57, 0x52, FIRST, 0, i->s_length % 256, i->s_length / 256};
    for (int number = 0; number < UGB_DAY_MOST; number++) {
        uint8_t *record = DAY + number * RECORD;
        memcpy(record, head, HEAD);
        memcpy(record + HEAD, i->s, i->s_length);
    }
}

static void count_values(void)
{
    for (input *i = numbers; i < numbers + NUMBERS; i++) {
        make_section(i);
        count("read value", i->name, call_read_value, i);
    }
    count("read value, refused", "62, EB", call_read_value, &inputs[SECURED]);
    count("read value, refused", "60, BodyType", call_read_value, &inputs[PLAIN]);
    count("write value", "8 bytes", call_write_value, &inputs[PLAIN]);
}

int main(void)
{
    input *secured = &inputs[SECURED];
    for (input *i = inputs; i < inputs + INPUTS; i++) {
        make_section(i);
        make_day(i);
    }

    count_sections("read", call_read);
    count_sections("summarize", call_summarize);
    count_sections("same summary", call_same_summary);
    count_sections("label shown", call_label_shown);
    count_sections("support copy", call_support_copy);
    count_sections("check copy", call_check_copy);
    count_sections("write", call_write);
    count_sections("next record", call_next_record);
    count_sections("read day, 256 records", call_read_day);
    count_portions();
    count_values();
    count("send", "signed, 40-unit title", call_send, secured);
    count("defaulted", "signed, 40-unit title", call_defaulted, secured);
    count("queue image read", "direct name", call_read_image, secured);
    count("queue image write", "direct name", call_write_image, secured);

    size_t properties = ugb_summarize(secured->s, secured->s_length, true).summary.security.parts.length;
    size_t name_end = properties - 4, label_end = properties + 56 + 498;
    count_refused("read, refused", "S2, sender kind", call_read, 0, 0xA3);
    count_refused("read, refused", "S11, last unit of the name", call_read, name_end, 1);
    count_refused("read, refused", "P3, class", call_read, properties + 2, 8);
    count_refused("read, refused", "P7, last unit of the label", call_read, label_end, 1);
    count_refused("check copy, refused", "P7, last unit of the label", call_check_copy, label_end, 1);
    count("check copy, no", "a byte short", call_check_cut_copy, secured);
    count("queue image read, refused", "last unit of the name", call_read_cut_image, secured);
    count("read day, refused", "one record too many", call_read_long_day, secured);
    count("read day, refused", "last record cut", call_read_cut_day, secured);
    secured->out_length = 0;
    count("support copy, refused", "output short", call_support_copy, secured);
    count("write, refused", "output short", call_write, secured);
    count("send, refused", "output short", call_send, secured);
    return 0;
}
