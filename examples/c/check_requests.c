/* The same for send requests, and for the properties of a section. */
#include "check.h"

static const uint16_t title[4] = {'h', 'i', 0, 'x'};
static const uint16_t name[1] = {'p'};
static const uint8_t identity[8] = {1, 0, 0, 0, 0, 0, 0, 5};
static const uint8_t key[3] = {0x31, 0x32, 0x33};
static const uint8_t signature[5] = {0x41, 0x42, 0x43, 0x44, 0x45};
static const uint8_t body[10] = {0x71, 0x72, 0x73, 0x74, 0x75, 0x76, 0x77, 0x78, 0x79, 0x7A};

/* A legal request, in which every number differs. */
static const ugb_request whole = {
    .priority = {true, 5},
    .trace = {true, 1},
    .delivery = {true, 0},
    .auditing = {true, 3},
    .message_class = {true, 0x8009},
    .acknowledge = {true, 9},
    .application_tag = {true, 0x05060708},
    .privacy_level = {true, 2},
    .hash_algorithm = {true, 0x800C},
    .encryption_algorithm = {true, 0x6610},
    .body_type = {true, 0x01020304},
    .sender_kind = {true, 1},
    .provider_type = {true, 0x0B0C0D0E},
    .split_number = {true, 14},
    .provider_name_length = 11,
    .time_to_queue = 0x11121314,
    .time_to_live = 0x21222324,
    .correlation_given = true,
    .correlation_id = {1, 2, 3, 4, 5, 6, 7, 8, 9, 10, 11, 12, 13, 14, 15, 16, 17, 18, 19, 20},
    .body_given = true,
    .allocation_body_size = 77,
    .transaction = true,
    .encryption = true,
};

static ugb_request_parts parts(size_t name_units, size_t certificate, size_t body_length)
{
    return (ugb_request_parts){
        .title = {title, 4},
        .sender_id = BYTES(identity),
        .encryption_key = BYTES(key),
        .signature = BYTES(signature),
        .sender_cert = {input, certificate},
        .provider_name = {name, name_units},
        .extension = {input, 9},
        .body = {body_length == sizeof body ? body : input, body_length},
    };
}

static ugb_defaulted_answer defaulted(ugb_request request, size_t name_units, size_t certificate, size_t body_length)
{
    const ugb_request_parts given = parts(name_units, certificate, body_length);
    return ugb_defaulted(&request, &given);
}

static void check_handling(ugb_handling handling)
{
    SAME(handling.known, true);
    SAME(handling.priority, 5);
    SAME(handling.trace, 1);
    SAME(handling.delivery, 1);
    SAME(handling.auditing, 3);
    SAME(handling.transaction, true);
    SAME(handling.direct_queue, false);
    SAME(handling.split_number.given, true);
    SAME(handling.split_number.number, 14);
    SAME(handling.provider_name_length, 11);
    SAME(handling.time_to_queue, 0x11121314);
    SAME(handling.time_to_live, 0x21222324);
}

/* What its section carries of it, with a SecurityHeader and provider info. */
static void check_carried(ugb_properties p)
{
    SAME(p.sender.known, true);
    SAME(p.sender.kind, 1);
    SAME(p.sender.default_provider, false);
    SAME(p.sender.encryption, true);
    SAME(p.provider_type.given, true);
    SAME(p.provider_type.number, 0x0B0C0D0E);
    SAME(p.message_class, 0x8009);
    SAME(p.acknowledge, 9);
    SAME(p.application_tag, 0x05060708);
    SAME(p.privacy_level.packet, false);
    SAME(p.privacy_level.level, 2);
    SAME(p.hash_algorithm, 0x800C);
    SAME(p.encryption_algorithm, 0x6610);
    SAME(p.body_type, 0x01020304);
    SAME(p.message_size, 10);
    SAME(p.allocation_body_size, 77);
    SAME(p.title, 2);
    SAME(p.signature, 3);
}

static void check_whole(void)
{
    ugb_defaulted_answer found = defaulted(whole, 1, 6, sizeof body);
    same_refusal(found.refusal, UGB_ACCEPTED, 0);
    check_handling(found.properties.handling);
    check_carried(found.properties);
    SAME(memcmp(found.correlation_id, correlation_id, 20), 0);
}

/* Only a time to queue of 0 is not passed on as given. */
static void check_times(void)
{
    static const uint32_t times[5] = {0, 1, 600, 0xFFFFFFFE, 0xFFFFFFFF};
    ugb_request request = whole;
    for (size_t i = 0; i < 5; i++)
        for (size_t j = 0; j < 5; j++) {
            request.time_to_queue = times[i];
            request.time_to_live = times[j];
            ugb_defaulted_answer found = defaulted(request, 1, 6, sizeof body);
            same_refusal(found.refusal, UGB_ACCEPTED, 0);
            SAME(found.properties.handling.time_to_queue, i == 0 ? 0xFFFFFFFF : times[i]);
            SAME(found.properties.handling.time_to_live, times[j]);
            check_carried(found.properties);
        }
}

/* Nothing is given but both times as 0, behind no pointer; then marks that the whole request leaves out. */
static void check_absent(void)
{
    static const uint8_t zeros[20];
    ugb_request request = {0};
    ugb_request_parts given = {0};
    ugb_defaulted_answer found = ugb_defaulted(&request, &given);
    ugb_properties p = found.properties;
    same_refusal(found.refusal, UGB_ACCEPTED, 0);
    SAME(p.handling.priority, 3);
    SAME(p.handling.trace | p.handling.delivery | p.handling.auditing | p.handling.split_number.given, 0);
    SAME(p.handling.time_to_queue, 0xFFFFFFFF);
    SAME(p.handling.time_to_live, 0);
    SAME(p.sender.kind | p.message_class | p.acknowledge | p.application_tag | p.body_type | p.title, 0);
    SAME(p.hash_algorithm | p.encryption_algorithm | p.provider_type.number, 0);
    PRIVACY(ZERO, p.privacy_level)
    SAME(p.message_size | p.allocation_body_size | p.signature, 0);
    SAME(memcmp(found.correlation_id, zeros, 20), 0);

    request.direct_queue = true;
    request.default_provider = true;
    request.allocation_body_size = 77;
    memset(request.correlation_id, 1, 20);
    given.body = (ugb_bytes)BYTES(body);
    found = ugb_defaulted(&request, &given);
    p = found.properties;
    SAME(memcmp(found.correlation_id, zeros, 20), 0);
    SAME(p.handling.direct_queue, true);
    SAME(p.handling.transaction, false);
    SAME(p.sender.default_provider, true);
    SAME(p.message_size | p.allocation_body_size, 0);
}

static void request_refused(ugb_defaulted_answer found, uint32_t number)
{
    same_refusal(found.refusal, number, 0);
    PROPERTIES(ZERO, found.properties)
    for (size_t i = 0; i < 20; i++)
        SAME(found.correlation_id[i], 0);
}

static void check_refused(void)
{
    ugb_request q = whole;
    q.priority.number = 8;
    request_refused(defaulted(q, 1, 6, 10), UGB_VALUE_OUT_OF_RANGE);
    q = whole, q.message_class.number = 0x8008;
    request_refused(defaulted(q, 1, 6, 10), UGB_CLASS);
    q = whole, q.privacy_level.number = 3;
    request_refused(defaulted(q, 1, 6, 10), UGB_PRIVACY);
    q = whole, q.direct_queue = true;
    request_refused(defaulted(q, 1, 6, 10), UGB_PRIVACY_ON_A_DIRECT_QUEUE);
    q = whole, q.encryption_algorithm.given = false;
    request_refused(defaulted(q, 1, 6, 10), UGB_ALGORITHM_ABSENT);
    q = whole, q.hash_algorithm.given = false;
    request_refused(defaulted(q, 1, 6, 10), UGB_HASH_ABSENT);
    q = whole, q.privacy_level.number = 1;
    request_refused(defaulted(q, 1, 6, 10), UGB_RETIRED);
    q = whole, q.hash_algorithm.number = 0x8003;
    request_refused(defaulted(q, 1, 6, 10), UGB_RETIRED);
    q = whole, q.sender_kind.number = 2;
    request_refused(defaulted(q, 1, 6, 10), UGB_REQUEST_IDENTITY);
    request_refused(defaulted(whole, 0, 6, 10), UGB_REQUEST_PROVIDER);
    q = whole, q.split_number.number = 11;
    request_refused(defaulted(q, 1, 6, 10), UGB_SPLIT_NUMBER);
    request_refused(defaulted(whole, 1, 65536, 10), UGB_PART_TOO_LARGE);
    q = whole, q.allocation_body_size = 9;
    request_refused(defaulted(q, 1, 6, 10), UGB_ALLOCATION);
    q = whole, q.allocation_body_size = UGB_LIMIT;
    request_refused(defaulted(q, 1, 6, UGB_LIMIT), UGB_ABOVE_THE_LIMIT);
}

static ugb_sent sent(ugb_request request, size_t room)
{
    const ugb_request_parts given = parts(1, 6, sizeof body);
    pattern();
    return ugb_send(&request, &given, out, room);
}

static void was_sent(ugb_sent found, size_t length, bool security_first)
{
    same_refusal(found.refusal, UGB_ACCEPTED, 0);
    SAME(found.length, length);
    SAME(found.security_first, security_first);
    untouched_from(length);
}

static void not_sent(ugb_sent found, uint32_t number)
{
    same_refusal(found.refusal, number, 0);
    SENT(ZERO, found)
    untouched_from(0);
}

/* 16 and the parts 8, 4, 4, 8, 8; 56, a label of 3 units, 9 and 10, padded. */
enum { PROPERTIES_AT = 48, SENT_LENGTH = 132 };

static void check_sent(void)
{
    ugb_request q = whole;
    ugb_reading found;
    was_sent(sent(whole, sizeof out), SENT_LENGTH, true);
    found = ugb_read(out, SENT_LENGTH, true);
    same_refusal(found.refusal, UGB_ACCEPTED, 0);
    SAME(found.section.summary.security.fields.flags, 0x00A1);
    SAME(found.section.summary.security.provider_type, 0x0B0C0D0E);
    same_part(found.section.summary.security.parts.signature, 28, 3);
    SAME(memcmp(out + 28, signature + 2, 3), 0);
    SAME(found.section.summary.properties.flags, 9);
    SAME(found.section.summary.properties.label_length, 3);
    SAME(found.section.summary.properties.privacy_level, 3);
    SAME(found.section.summary.properties.allocation_body_size, 77);
    SAME(found.section.application_tag, 0x05060708);
    SAME(memcmp(out + found.section.correlation_id.start, correlation_id, 20), 0);
    SAME(memcmp(out + found.section.summary.parts.body.start, body, sizeof body), 0);

    not_sent(sent(whole, SENT_LENGTH - 1), UGB_OUTPUT_SHORT);
    q.priority.number = 8;
    not_sent(sent(q, sizeof out), UGB_VALUE_OUT_OF_RANGE);
}

/* No byte of a section holds a time. */
static void check_times_not_sent(void)
{
    static const uint8_t zeros[56];
    const ugb_request request = {.time_to_queue = 0x11121314, .time_to_live = 0x21222324};
    const ugb_request_parts none = {0};
    pattern();
    was_sent(ugb_send(&request, &none, out, sizeof out), sizeof zeros, false);
    SAME(memcmp(out, zeros, sizeof zeros), 0);
}

static ugb_properties properties_of(const uint8_t *s, size_t length, bool security_first)
{
    ugb_reading found = ugb_read(s, length, security_first);
    same_refusal(found.refusal, UGB_ACCEPTED, 0);
    return ugb_properties_of(found.section);
}

/* What a section does not carry is not known: never how a request is handled; who the sender is only with a
 * SecurityHeader, and the provider's type, which may be 0, only with provider info. */
static void check_known(void)
{
    was_sent(sent(whole, sizeof out), SENT_LENGTH, true);
    ugb_properties p = properties_of(out, SENT_LENGTH, true);
    HANDLING(ZERO, p.handling)
    check_carried(p);
    p = properties_of(out + PROPERTIES_AT, SENT_LENGTH - PROPERTIES_AT, false);
    HANDLING(ZERO, p.handling)
    SENDER(ZERO, p.sender)
    NUMBER(ZERO, p.provider_type)
    SAME(p.application_tag, 0x05060708);
    SAME(p.title, 2);
    SAME(p.signature, 0);

    put_security(0x00C2, (const uint32_t[5]){16, 0, 5, 0, 0}, 40);
    p = properties_of(input, 96, true);
    SAME(p.sender.known, true);
    SAME(p.sender.kind, 2);
    SAME(p.sender.default_provider, true);
    SAME(p.sender.encryption, false);
    NUMBER(ZERO, p.provider_type)
    SAME(p.signature, 5);
    put_security(0x0080, (const uint32_t[5]){0, 0, 4, 0, 8}, 28);
    put(24, 2, 'p');
    p = properties_of(input, 84, true);
    SAME(p.sender.known, true);
    SAME(p.sender.kind | p.sender.default_provider | p.sender.encryption, 0);
    SAME(p.provider_type.given, true);
    SAME(p.provider_type.number, 0);

    p = ugb_properties_of(ugb_read(input, 83, true).section);
    PROPERTIES(ZERO, p)
}

/* PrivacyLevel, whether no request's privacy becomes it, and the level. */
static void check_privacy(void)
{
    static const uint32_t examples[8][3] = {
        {0, false, 0},
        {1, false, 1},
        {2, true, 2},
        {3, false, 2},
        {4, true, 4},
        {5, true, 5},
        {0x01000003, true, 0x01000003},
        {0xFFFFFFFF, true, 0xFFFFFFFF},
    };
    put_properties(0, 0, 0);
    for (size_t i = 0; i < 8; i++) {
        put(40, 4, examples[i][0]);
        ugb_privacy found = properties_of(input, 56, false).privacy_level;
        SAME(found.packet, examples[i][1]);
        SAME(found.level, examples[i][2]);
    }
}

/* 01's example 11: the title's units, and LabelLength. A section's title has the null no more. */
static void check_titles(void)
{
    static const size_t examples[4][2] = {{249, 250}, {250, 250}, {248, 249}, {0, 0}};
    static uint16_t units[250];
    const ugb_request request = {0};
    for (size_t i = 0; i < 250; i++)
        units[i] = 'x';
    for (size_t i = 0; i < 4; i++) {
        const ugb_request_parts given = {.title = {units, examples[i][0]}};
        pattern();
        ugb_sent answer = ugb_send(&request, &given, out, sizeof out);
        was_sent(answer, answer.length, false);
        SAME(ugb_read(out, answer.length, false).section.summary.properties.label_length, examples[i][1]);
        SAME(properties_of(out, answer.length, false).title, ugb_defaulted(&request, &given).properties.title);
    }
    for (uint8_t length = 0; length <= 250; length++) {
        put_properties(0, length, 0);
        SAME(properties_of(input, 1024, false).title, length == 0 ? 0 : length - 1);
    }
}

/* A SecurityHeader stands first where one of four parts is not empty, and a read of what was sent asks for it. */
static void check_security_first(void)
{
    const ugb_request request = {.hash_algorithm = {true, 0}, .provider_type = {true, 1}, .default_provider = true};
    const ugb_request identified = {.sender_kind = {true, 1}};
    const ugb_request_parts given[5] = {
        {.extension = BYTES(body)},
        {.sender_id = BYTES(identity)},
        {.encryption_key = BYTES(key)},
        {.signature = BYTES(signature)},
        {.sender_cert = BYTES(body)},
    };
    for (size_t i = 0; i < 5; i++) {
        pattern();
        ugb_sent answer = ugb_send(i == 1 ? &identified : &request, &given[i], out, sizeof out);
        was_sent(answer, answer.length, i != 0);
        ugb_reading found = ugb_read(out, answer.length, answer.security_first);
        same_refusal(found.refusal, UGB_ACCEPTED, 0);
        SAME(found.section.summary.parts.section_length, answer.length);
    }
}

/* No part, behind no pointer. */
static void check_null(void)
{
    const ugb_request request = {0};
    const ugb_request_parts none = {0};
    pattern();
    not_sent(ugb_send(&request, &none, NULL, 0), UGB_OUTPUT_SHORT);
    was_sent(ugb_send(&request, &none, out, sizeof out), 56, false);
}

int main(void)
{
    check_whole();
    check_times();
    check_absent();
    check_refused();
    check_sent();
    check_times_not_sent();
    check_known();
    check_privacy();
    check_titles();
    check_security_first();
    check_null();
    report();
    return 0;
}
