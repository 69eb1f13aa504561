/* Sends a signed message, with a hash that is retired and with one that is not, and does with its section what
 * receivers do: reads it back, takes its properties, makes its support copy, checks a copy that another made, writes
 * the section again, and lists it as a record of a day's file. Prints what each call answered. */
#include <stdio.h>
#include <stdlib.h>
#include <string.h>

#include "ugbariteyo.h"

static uint8_t section[1024], copy[1024], again[1024], file[8 + 1024];

static void accepted(const char *what, ugb_refusal refusal)
{
    if (refusal.number == UGB_ACCEPTED)
        return;
    printf("%s: refused %u at %zu: %s\n", what, (unsigned)refusal.number, refusal.place,
           ugb_refusal_text(refusal.number));
    exit(1);
}

static const uint16_t title[] = {'R', 'e', 's', 'u', 'l', 't', 's'};
static const uint16_t provider[] = {'S', 'i', 'g', 'n', 'e', 'r'};
static const uint8_t signature[64] = {1, 2, 3}, body[100] = {4, 5, 6};
static const ugb_request_parts parts = {
    .title = {title, 7},
    .signature = {signature, sizeof signature},
    .provider_name = {provider, 6},
    .body = {body, sizeof body},
};

static ugb_request request_with(uint32_t hash_algorithm)
{
    return (ugb_request){
        .application_tag = {true, 7},
        .hash_algorithm = {true, hash_algorithm},
        .provider_type = {true, 1},
        .time_to_queue = 0, /* becomes 0xFFFFFFFF */
        .time_to_live = 86400,
        .correlation_given = true,
        .correlation_id = {8, 9, 10},
        .body_given = true,
        .allocation_body_size = sizeof body,
    };
}

static void print_properties(const char *of, const ugb_properties *properties)
{
    printf("%s: tag %u, title of %u units, ", of, (unsigned)properties->application_tag, (unsigned)properties->title);
    if (properties->handling.known)
        printf("0x%X seconds to queue, %u to live\n", (unsigned)properties->handling.time_to_queue,
               (unsigned)properties->handling.time_to_live);
    else
        printf("times not known\n");
}

static size_t write_again(const ugb_section *read)
{
    const ugb_section_values values = ugb_values_of(read, section);
    const ugb_section_parts read_parts = ugb_parts_of(read, section);
    ugb_output written = ugb_write_section(&values, &read_parts, again, sizeof again);
    accepted("write", written.refusal);
    return written.length;
}

/* A file of one record. */
static ugb_record list_one(size_t length, bool security_first)
{
    const uint8_t head[8] = {0x57, 0x52, security_first, 0, (uint8_t)length, (uint8_t)(length >> 8)};
    memcpy(file, head, sizeof head);
    memcpy(file + sizeof head, section, length);
    return ugb_next_record(file, sizeof head + length);
}

int main(void)
{
    const ugb_request md5 = request_with(0x8003), sha256 = request_with(0x800C);
    ugb_sent refused = ugb_send(&md5, &parts, section, sizeof section);
    printf("with MD5: refused %u: %s\n", (unsigned)refused.refusal.number, ugb_refusal_text(refused.refusal.number));

    ugb_defaulted_answer defaulted = ugb_defaulted(&sha256, &parts);
    accepted("defaulted", defaulted.refusal);
    print_properties("request", &defaulted.properties);
    ugb_sent sent = ugb_send(&sha256, &parts, section, sizeof section);
    accepted("send", sent.refusal);
    printf("sent: %zu bytes, with%s SecurityHeader\n", sent.length, sent.security_first ? " a" : "out a");

    ugb_reading reading = ugb_read(section, sent.length, sent.security_first);
    accepted("read", reading.refusal);
    const ugb_summary *summary = &reading.section.summary;
    printf("read: tag %u, label of %u units, signature of %zu bytes, body of %zu\n",
           (unsigned)reading.section.application_tag, (unsigned)summary->properties.label_length,
           summary->security.parts.signature.length, summary->parts.body.length);
    ugb_properties properties = ugb_properties_of(reading.section);
    print_properties("section", &properties);

    ugb_output copied = ugb_support_copy(section, sent.length, sent.security_first, copy, sizeof copy);
    accepted("copy", copied.refusal);
    printf("copied: %zu bytes, %s summary\n", copied.length,
           ugb_same_summary(section, sent.length, copy, copied.length, sent.security_first) ? "the same" : "another");

    bool copy_is = ugb_is_support_copy(section, sent.length, sent.security_first, copy, copied.length);
    bool section_is = ugb_is_support_copy(section, sent.length, sent.security_first, section, sent.length);
    printf("checked: %s for the copy, %s for the section itself\n", copy_is ? "yes" : "no", section_is ? "yes" : "no");

    size_t written = write_again(&reading.section);
    printf("written: %zu bytes, %s\n", written, memcmp(section, again, written) == 0 ? "the same" : "others");

    ugb_record record = list_one(sent.length, sent.security_first);
    accepted("list", record.refusal);
    printf("listed: %zu bytes, body of %zu\n", record.section_length, record.message_size);
    return 0;
}
