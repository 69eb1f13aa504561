/* Calls the functions for sections and queue formats on small inputs, 01's examples among them, and compares the
 * answers; each member of each struct has a value of its own somewhere, so that a member at a wrong offset shows. */
#include "check.h"

static const uint8_t no_bytes[1];

/* ---- a section that has everything, written and read back */

static const ugb_section_values values = {
    .security_first = true,
    .security_flags = 0xF0A1, /* ST 1, EB, DP, and X bits */
    .flags = 0xF6,            /* PR, NA, and X bits */
    .message_class = 0x8009,
    .body_type = 0x01020304,
    .application_tag = 0x05060708,
    .allocation_body_size = 77,
    .privacy_level = 5,
    .hash_algorithm = 0x800C,
    .encryption_algorithm = 0x6610,
    .correlation_id = {1, 2, 3, 4, 5, 6, 7, 8, 9, 10, 11, 12, 13, 14, 15, 16, 17, 18, 19, 20},
};

/* An identity with no sub-authority, and a provider of type 0x0B0C0D0E named "p". */
static const uint8_t identity[8] = {1, 0, 0, 0, 0, 0, 0, 5};
static const uint8_t key[3] = {0x31, 0x32, 0x33};
static const uint8_t signature[5] = {0x41, 0x42, 0x43, 0x44, 0x45};
static const uint8_t certificate[6] = {0x51, 0x52, 0x53, 0x54, 0x55, 0x56};
static const uint8_t provider[8] = {0x0E, 0x0D, 0x0C, 0x0B, 'p', 0, 0, 0};
static const uint8_t label[6] = {'h', 0, 'i', 0, 0, 0};
static const uint8_t extension[9] = {0x61, 0x62, 0x63, 0x64, 0x65, 0x66, 0x67, 0x68, 0x69};
static const uint8_t body[10] = {0x71, 0x72, 0x73, 0x74, 0x75, 0x76, 0x77, 0x78, 0x79, 0x7A};

/* Its SecurityHeader is 16 + 8 + 4 + 8 + 8 + 8 bytes long; behind it 56 + 6 + 9 + 10, padded. */
enum { PROPERTIES_AT = 52, SECTION_LENGTH = 136 };

static ugb_section_parts whole_parts(size_t certificate_length)
{
    return (ugb_section_parts){
        .sender_id = BYTES(identity),
        .encryption_key = BYTES(key),
        .signature = BYTES(signature),
        .sender_cert = {input, certificate_length},
        .provider_info = BYTES(provider),
        .label = BYTES(label),
        .extension = BYTES(extension),
        .body = BYTES(body),
    };
}

static ugb_output write_whole(ugb_section_values v, size_t certificate_length, size_t room)
{
    const ugb_section_parts parts = whole_parts(certificate_length);
    return ugb_write_section(&v, &parts, out, room);
}

static void check_security(ugb_security_header security)
{
    SAME(security.fields.flags, 0x0A1);
    SAME(security.fields.sender_id_size, 8);
    SAME(security.fields.encryption_key_size, 3);
    SAME(security.fields.signature_size, 5);
    SAME(security.fields.sender_cert_size, 6);
    SAME(security.fields.provider_info_size, 8);
    same_part(security.parts.sender_id, 16, 8);
    same_part(security.parts.encryption_key, 24, 3);
    same_part(security.parts.signature, 28, 5);
    same_part(security.parts.sender_cert, 36, 6);
    same_part(security.parts.provider_info, 44, 8);
    SAME(security.parts.length, PROPERTIES_AT);
    SAME(security.sid_revision, 1);
    SAME(security.sid_sub_authority_count, 0);
    SAME(security.provider_type, 0x0B0C0D0E);
}

static void check_summary(ugb_summary summary)
{
    SAME(summary.security_first, true);
    check_security(summary.security);
    SAME(summary.properties.flags, 6);
    SAME(summary.properties.label_length, 3);
    SAME(summary.properties.message_class, 0x8009);
    SAME(summary.properties.body_type, 0x01020304);
    SAME(summary.properties.message_size, 10);
    SAME(summary.properties.allocation_body_size, 77);
    SAME(summary.properties.privacy_level, 5);
    SAME(summary.properties.hash_algorithm, 0x800C);
    SAME(summary.properties.encryption_algorithm, 0x6610);
    SAME(summary.properties.extension_size, 9);
    same_part(summary.parts.label, PROPERTIES_AT + 56, 6);
    same_part(summary.parts.extension, PROPERTIES_AT + 62, 9);
    same_part(summary.parts.body, PROPERTIES_AT + 71, 10);
    SAME(summary.parts.section_length, SECTION_LENGTH);
    SAME(summary.authentication_fails, false);
    SAME(summary.decryption_fails, false);
    SAME(summary.retired, false);
}

/* What was read is written again. */
static void check_again(const ugb_section *read, const uint8_t *section, size_t length)
{
    const ugb_section_values v = ugb_values_of(read, section);
    const ugb_section_parts parts = ugb_parts_of(read, section);
    pattern();
    written(ugb_write_section(&v, &parts, out, sizeof out), length);
    SAME(memcmp(out, section, length), 0);
}

static bool is_copy(const uint8_t *section, size_t section_length, size_t copy_length)
{
    return ugb_is_support_copy(section, section_length, true, out, copy_length);
}

/* Of the section the copy in the output is the support copy, and no other bytes are: none with another bit, no more and
 * no fewer. Its private bits do not count: with another bit it has that copy where the summary is the same. */
static void check_copy(const uint8_t *section)
{
    static uint8_t other[SECTION_LENGTH];
    const size_t length = SECTION_LENGTH;
    SAME(is_copy(section, length, length), true);
    SAME(is_copy(section, length, length - 1), false);
    SAME(is_copy(section, length, length + 1), false);
    SAME(is_copy(section, length - 1, length), false);
    SAME(is_copy(section, length - 1, length - 1), false);
    SAME(ugb_is_support_copy(section, length, true, section, length), false);
    SAME(ugb_is_support_copy(out, sizeof out, true, out, length), true);
    SAME(ugb_is_support_copy(section, length, false, out, length), false);
    for (size_t bit = 0; bit < 8 * length; bit++) {
        uint8_t turned = (uint8_t)(1 << bit % 8);
        out[bit / 8] ^= turned;
        SAME(is_copy(section, length, length), false);
        out[bit / 8] ^= turned;
        memcpy(other, section, length);
        other[bit / 8] ^= turned;
        SAME(is_copy(other, length, length), ugb_same_summary(other, length, section, length, true));
    }
}

static void check_whole(void)
{
    static uint8_t section[SECTION_LENGTH];
    memcpy(input, certificate, sizeof certificate);
    pattern();
    written(write_whole(values, sizeof certificate, sizeof out), SECTION_LENGTH);
    memcpy(section, out, sizeof section);

    ugb_summarized summarized = ugb_summarize(section, sizeof section, true);
    same_refusal(summarized.refusal, UGB_ACCEPTED, 0);
    check_summary(summarized.summary);
    ugb_reading reading = ugb_read(section, sizeof section, true);
    same_refusal(reading.refusal, UGB_ACCEPTED, 0);
    check_summary(reading.section.summary);
    same_part(reading.section.correlation_id, PROPERTIES_AT + 4, 20);
    SAME(memcmp(section + PROPERTIES_AT + 4, correlation_id, 20), 0);
    SAME(memcmp(section + 36, certificate, sizeof certificate), 0);
    SAME(reading.section.application_tag, 0x05060708);
    check_again(&reading.section, section, sizeof section);

    ugb_label shown = ugb_label_shown(section, sizeof section, true);
    SAME(shown.stand_in, false);
    same_part(shown.part, PROPERTIES_AT + 56, sizeof label);

    pattern();
    written(ugb_support_copy(section, sizeof section, true, out, sizeof out), SECTION_LENGTH);
    SAME(memcmp(out + PROPERTIES_AT + 56, label, sizeof label), 0);
    for (size_t i = 0; i < sizeof body; i++)
        SAME(out[PROPERTIES_AT + 71 + i], 0);
    SAME(ugb_same_summary(section, sizeof section, out, sizeof out, true), true);
    check_copy(section);
    out[PROPERTIES_AT + 57] = 1; /* a unit of the label */
    SAME(ugb_same_summary(section, sizeof section, out, sizeof out, true), false);
    pattern();
    refused(ugb_support_copy(section, sizeof section, true, out, SECTION_LENGTH - 1), UGB_OUTPUT_SHORT, 0);
    refused(ugb_support_copy(section, 15, true, out, sizeof out), UGB_INPUT_SHORT, 0);
}

/* The verdicts on what is written from those values. */
static void check_verdict(ugb_section_values v, bool authentication_fails, bool decryption_fails)
{
    pattern();
    written(write_whole(v, sizeof certificate, sizeof out), SECTION_LENGTH);
    ugb_summary summary = ugb_summarize(out, sizeof out, true).summary;
    SAME(summary.authentication_fails, authentication_fails);
    SAME(summary.decryption_fails, decryption_fails);
}

/* The verdicts, each by itself: a hash algorithm that is not listed, and an encryption algorithm that the privacy level
 * does not allow, where EB is set. */
static void check_verdicts(void)
{
    static const uint32_t rc[] = {0x6602, 0x6801}, aes[] = {0x660E, 0x660F, 0x6610}, unlisted[] = {0, 0x6611};
    ugb_section_values v = values;
    v.hash_algorithm = 0x8005;
    check_verdict(v, true, false);
    for (uint32_t level = 0; level <= 6; level++) {
        bool listed = level == 0 || level == 1 || level == 3 || level == 5;
        for (int eb = 0; eb <= 1; eb++) {
            v = values;
            v.security_flags = eb ? 0xF0A1 : 0xF081;
            v.privacy_level = level;
            for (size_t i = 0; i < 2; i++) {
                v.encryption_algorithm = rc[i];
                check_verdict(v, !listed, eb && level != 1 && level != 3);
                v.encryption_algorithm = unlisted[i];
                check_verdict(v, !listed, eb);
            }
            for (size_t i = 0; i < 3; i++) {
                v.encryption_algorithm = aes[i];
                check_verdict(v, !listed, eb && level != 5);
            }
        }
    }
}

/* Retired: privacy level 1, or MD2, MD4 or MD5 beside a signature. From PROPERTIES_AT on, the section without its
 * SecurityHeader is read. */
static void check_retired(void)
{
    ugb_section_values v = values;
    for (v.privacy_level = 0; v.privacy_level <= 6; v.privacy_level++) {
        bool weak = v.privacy_level == 1;
        for (v.hash_algorithm = 0x8000; v.hash_algorithm <= 0x8005; v.hash_algorithm++) {
            bool md = v.hash_algorithm >= 0x8001 && v.hash_algorithm <= 0x8003;
            pattern();
            written(write_whole(v, sizeof certificate, sizeof out), SECTION_LENGTH);
            SAME(ugb_summarize(out, SECTION_LENGTH, true).summary.retired, weak || md);
            ugb_summarized second = ugb_summarize(out + PROPERTIES_AT, SECTION_LENGTH - PROPERTIES_AT, false);
            same_refusal(second.refusal, UGB_ACCEPTED, 0);
            SAME(second.summary.retired, weak);
        }
    }
}

static void check_writer_refuses(void)
{
    ugb_section_values v = values;
    pattern();
    refused(write_whole(v, sizeof certificate, SECTION_LENGTH - 1), UGB_OUTPUT_SHORT, 0);
    refused(write_whole(v, 65536, sizeof out), UGB_PART_TOO_LARGE, 0);
    v.security_flags = 0x0083;
    refused(write_whole(v, sizeof certificate, sizeof out), UGB_SENDER_KIND, 0);
    v.security_flags = 0x0091;
    refused(write_whole(v, sizeof certificate, sizeof out), UGB_AU_OR_AS, 0);
    v.security_flags = 0x0021;
    refused(write_whole(v, sizeof certificate, sizeof out), UGB_EMPTY_OR_DP_CLEAR, 0);
    v = values;
    v.message_class = 0x8008;
    refused(write_whole(v, sizeof certificate, sizeof out), UGB_CLASS, PROPERTIES_AT + 2);
    v = values;
    v.allocation_body_size = sizeof body - 1;
    refused(write_whole(v, sizeof certificate, sizeof out), UGB_ALLOCATION, PROPERTIES_AT + 36);
}

static void part_refused(ugb_section_parts parts, uint32_t number, size_t place)
{
    pattern();
    refused(ugb_write_section(&values, &parts, out, sizeof out), number, place);
}

/* Each part wrong by itself; the provider info is written at 44. */
static void check_writer_refuses_parts(void)
{
    static const uint8_t unended[8] = {1, 0, 0, 0, 'p', 0, 'q', 0}, zeros[502];
    const ugb_section_parts whole = whole_parts(sizeof certificate), none = {0};
    ugb_section_parts parts = whole;
    part_refused(none, UGB_EMPTY_OR_DP_CLEAR, 2);
    parts.sender_id.length = 7;
    part_refused(parts, UGB_IDENTITY, 2);
    parts.sender_id = (ugb_bytes){zeros, 8};
    part_refused(parts, UGB_IDENTITY, 2);
    parts = whole, parts.provider_info.length = 7;
    part_refused(parts, UGB_PROVIDER, 0);
    parts.provider_info = (ugb_bytes)BYTES(unended);
    part_refused(parts, UGB_PROVIDER, 50);
    parts.provider_info = (ugb_bytes){zeros, 8};
    part_refused(parts, UGB_PROVIDER, 48);
    parts.provider_info = (ugb_bytes)BYTES(input);
    part_refused(parts, UGB_ABOVE_THE_LIMIT, 0);
    parts = whole, parts.label = (ugb_bytes)BYTES(zeros);
    part_refused(parts, UGB_LABEL_LENGTH, PROPERTIES_AT + 1);
    parts.label = (ugb_bytes){label, 5};
    part_refused(parts, UGB_LABEL_LENGTH, PROPERTIES_AT + 1);
    parts.label = (ugb_bytes){label, 4};
    part_refused(parts, UGB_LABEL, PROPERTIES_AT + 58);
    parts.label = (ugb_bytes){zeros, 6};
    part_refused(parts, UGB_LABEL, PROPERTIES_AT + 56);
    parts = whole, parts.extension = (ugb_bytes)BYTES(input);
    part_refused(parts, UGB_ABOVE_THE_LIMIT, PROPERTIES_AT);
}

/* ---- 01's examples */

static void reading_refused(size_t length, bool security_first, uint32_t number, size_t place)
{
    ugb_reading found = ugb_read(input, length, security_first);
    ugb_summarized summarized = ugb_summarize(input, length, security_first);
    ugb_label label = ugb_label_shown(input, length, security_first);
    same_refusal(found.refusal, number, place);
    SECTION(ZERO, found.section)
    same_refusal(summarized.refusal, number, place);
    SUMMARY(ZERO, summarized.summary)
    SAME(label.stand_in, true);
    PART(ZERO, label.part)
    SAME(ugb_same_summary(input, length, input, length, security_first), false);
    SAME(ugb_is_support_copy(input, length, security_first, input, length), false);
}

static void length_is(size_t length, bool security_first, size_t wanted)
{
    ugb_summarized found = ugb_summarize(input, length, security_first);
    same_refusal(found.refusal, UGB_ACCEPTED, 0);
    SAME(found.summary.parts.section_length, wanted);
}

/* 1 to 6 */
static void check_properties_examples(void)
{
    put_properties(0, 0, 0);
    length_is(56, false, 56);
    reading_refused(55, false, UGB_INPUT_SHORT, 0);
    put_properties(0, 3, 0);
    put(52, 4, 5);
    put(32, 4, 2);
    put(36, 4, 2);
    ugb_summary m = ugb_summarize(input, 72, false).summary;
    same_part(m.parts.label, 56, 6);
    same_part(m.parts.extension, 62, 5);
    same_part(m.parts.body, 67, 2);
    length_is(72, false, 72);
    reading_refused(71, false, UGB_INPUT_SHORT, 0);
    put_properties(0, 250, 0);
    length_is(556, false, 556);
    put_properties(0, 251, 0x8008);
    reading_refused(1024, false, UGB_LABEL_LENGTH, 1);
    put_properties(0, 1, 0);
    length_is(60, false, 60);
    same_part(ugb_label_shown(input, 60, false).part, 56, 2);
    put_properties(0, 0, 0x8008);
    reading_refused(56, false, UGB_CLASS, 2);
    put_properties(0, 0, 0x8009);
    length_is(56, false, 56);
    put(32, 4, 4194248);
    put(36, 4, 4194248);
    length_is(UGB_LIMIT, false, UGB_LIMIT);
    put(32, 4, 4194249);
    put(36, 4, 4194249);
    reading_refused(56, false, UGB_ABOVE_THE_LIMIT, 0);
}

/* 7 to 9 */
static void check_security_examples(void)
{
    put_security(0x0080, (const uint32_t[5]){0, 1, 0, 2, 0}, 24);
    ugb_security_parts parts = ugb_summarize(input, 80, true).summary.security.parts;
    same_part(parts.encryption_key, 16, 1);
    same_part(parts.sender_cert, 20, 2);
    SAME(parts.length, 24);
    length_is(80, true, 80);
    reading_refused(79, true, UGB_INPUT_SHORT, 24);
    put_security(0x00C2, (const uint32_t[5]){16, 0, 5, 0, 0}, 40);
    same_part(ugb_summarize(input, 96, true).summary.security.parts.signature, 32, 5);
    length_is(96, true, 96);
    put(0, 2, 0x0042);
    reading_refused(96, true, UGB_EMPTY_OR_DP_CLEAR, 0);
    put_security(0x0080, (const uint32_t[5]){0, 0, 4, 0, 8}, 28);
    put(24, 2, 'p');
    same_part(ugb_summarize(input, 84, true).summary.security.parts.provider_info, 20, 8);
    length_is(84, true, 84);
    put(12, 4, 6);
    reading_refused(84, true, UGB_PROVIDER, 0);
}

/* ---- queue formats */

static void image_is(size_t length, ugb_queue_format format, ugb_part fixed, ugb_part text)
{
    ugb_image_read found = ugb_read_image(input, length);
    same_refusal(found.refusal, UGB_ACCEPTED, 0);
    SAME(found.format.kind, format.kind);
    SAME(found.format.suffix_and_flags, format.suffix_and_flags);
    same_part(found.fixed, fixed.start, fixed.length);
    same_part(found.text, text.start, text.length);
    pattern();
    ugb_bytes fixed_bytes = ugb_bytes_of(found.fixed, input), text_bytes = ugb_bytes_of(found.text, input);
    written(ugb_write_image(found.format, UGB_BYTES(fixed_bytes), UGB_BYTES(text_bytes), out, sizeof out), length);
    SAME(memcmp(out, input, length), 0);
}

static void image_refused(uint8_t kind, uint8_t byte, size_t length, uint32_t number)
{
    memset(input, 0, length);
    input[0] = kind;
    input[1] = byte;
    ugb_image_read found = ugb_read_image(input, length);
    same_refusal(found.refusal, number, 0);
    IMAGE(ZERO, found)
}

static void check_images(void)
{
    const ugb_part none = {0, 0};
    memcpy(input, (const uint8_t[4]){UGB_QUEUE_MACHINE, 0x81, 0, 0}, 4);
    memset(input + 4, 0x5A, 16);
    image_is(20, (ugb_queue_format){4, 0x81}, (ugb_part){4, 16}, none);
    input[0] = UGB_QUEUE_CONNECTOR, input[1] = 0x84;
    image_is(20, (ugb_queue_format){5, 0x84}, (ugb_part){4, 16}, none);
    input[0] = UGB_QUEUE_DL, input[1] = 0;
    put(20, 2, 'q'), put(22, 2, 0);
    image_is(24, (ugb_queue_format){6, 0}, (ugb_part){4, 16}, (ugb_part){20, 4});
    memcpy(input, (const uint8_t[8]){UGB_QUEUE_SUBQUEUE, 0x05, 0, 0, 'q', 0, 0, 0}, 8);
    image_is(8, (ugb_queue_format){8, 0x05}, none, (ugb_part){4, 4});
    memset(input, 0, 4);
    image_is(4, (ugb_queue_format){0, 0}, none, none);

    image_refused(0, 0, 3, UGB_INPUT_SHORT);
    image_refused(9, 0, 4, UGB_QUEUE_TYPE);
    image_refused(4, 0x00, 20, UGB_QUEUE_SUFFIX);
    image_refused(3, 0x05, 8, UGB_QUEUE_SUFFIX);
    image_refused(1, 0x82, 20, UGB_QUEUE_SUFFIX);
    image_refused(1, 0x00, 19, UGB_QUEUE_VALUE);
    image_refused(3, 0x00, 8, UGB_QUEUE_STRING);

    pattern();
    refused(ugb_write_image((ugb_queue_format){9, 0}, no_bytes, 0, no_bytes, 0, out, sizeof out), UGB_QUEUE_TYPE, 0);
    refused(ugb_write_image((ugb_queue_format){1, 0}, identity, 8, no_bytes, 0, out, sizeof out), UGB_QUEUE_VALUE, 0);
    refused(ugb_write_image((ugb_queue_format){3, 0}, no_bytes, 0, no_bytes, 1, out, sizeof out), UGB_QUEUE_STRING, 0);
    refused(ugb_write_image((ugb_queue_format){3, 0}, no_bytes, 0, label, 6, out, 9), UGB_OUTPUT_SHORT, 0);
}

/* ---- no bytes at all, behind no pointer */

static void check_null(void)
{
    const ugb_section_values zero = {0};
    const ugb_section_parts none = {0};
    ugb_reading reading = ugb_read(NULL, 0, true);
    same_refusal(reading.refusal, UGB_INPUT_SHORT, 0);
    same_refusal(ugb_summarize(NULL, 0, false).refusal, UGB_INPUT_SHORT, 0);
    same_refusal(ugb_read_image(NULL, 0).refusal, UGB_INPUT_SHORT, 0);
    SAME(ugb_refused_field(NULL, 0, true, reading.refusal).field, UGB_FIELD_SECURITY_HEADER);
    SAME(ugb_field_at(NULL, 0, true, 0).field, UGB_FIELD_NONE);
    SAME(ugb_label_shown(NULL, 0, false).stand_in, true);
    SAME(ugb_same_summary(NULL, 0, NULL, 0, false), false);
    SAME(ugb_is_support_copy(NULL, 0, false, NULL, 0), false);
    pattern();
    refused(ugb_support_copy(NULL, 0, false, out, sizeof out), UGB_INPUT_SHORT, 0);
    refused(ugb_support_copy(NULL, 0, false, NULL, 0), UGB_INPUT_SHORT, 0);
    refused(ugb_write_image((ugb_queue_format){0, 0}, NULL, 0, NULL, 0, NULL, 0), UGB_OUTPUT_SHORT, 0);
    refused(ugb_write_section(&zero, &none, NULL, 0), UGB_OUTPUT_SHORT, 0);
    written(ugb_write_section(&zero, &none, out, sizeof out), 56);
    SAME(ugb_is_support_copy(out, 56, false, NULL, 0), false);
    SAME(ugb_is_support_copy(out, 56, false, out, 56), true);

    const ugb_section_values values_read = ugb_values_of(&reading.section, NULL);
    const ugb_section_parts parts_read = ugb_parts_of(&reading.section, NULL);
    pattern();
    written(ugb_write_section(&values_read, &parts_read, out, sizeof out), 56);
}

/* ---- what the header says of itself */

static void check_header(void)
{
    char version[32];
    snprintf(version, sizeof version, "%d.%d.%d", UGB_VERSION_MAJOR, UGB_VERSION_MINOR, UGB_VERSION_PATCH);
    SAME(strcmp(version, UGB_VERSION), 0);
    SAME(strcmp(ugb_refusal_text(UGB_ACCEPTED), "accepted"), 0);
    SAME(strcmp(ugb_refusal_text(UGB_LABEL_LENGTH), "LabelLength above 250, or a label of an odd number of bytes"), 0);
    SAME(strcmp(ugb_refusal_text(17), "unknown refusal"), 0);
}

int main(void)
{
    check_whole();
    check_verdicts();
    check_retired();
    check_writer_refuses();
    check_writer_refuses_parts();
    check_properties_examples();
    check_security_examples();
    check_images();
    check_null();
    check_header();
    report();
    return 0;
}
