/* The same for the places of refusals by reading, and for the fields that lie there. */
#include "check.h"

/* By every reader, a record's too: refused with this, about what is called so. */
static void refused_at(const uint8_t *s, size_t length, bool security_first, ugb_refusal refusal, const char *words)
{
    static uint8_t file[8 + LENGTH];
    const uint8_t head[8] = {0x57, 0x52, security_first, 0, (uint8_t)length};
    char found[UGB_WORDS];
    ugb_day_slot slot;
    same_refusal(ugb_read(s, length, security_first).refusal, refusal.number, refusal.place);
    ugb_portions state = ugb_start(security_first);
    for (size_t i = 0; i < length; i++)
        same_refusal(ugb_portion(&state, s + i, 1), UGB_ACCEPTED, 0);
    same_refusal(ugb_finish(&state).refusal, refusal.number, refusal.place);
    pattern();
    refused(ugb_support_copy(s, length, security_first, out, sizeof out), refusal.number, refusal.place);
    memcpy(file, head, sizeof head);
    memcpy(file + sizeof head, s, length);
    ugb_record record = ugb_next_record(file, sizeof head + length);
    SAME(record.next, UGB_FOUND);
    same_refusal(record.refusal, refusal.number, refusal.place);
    SAME(ugb_read_day(file, sizeof head + length, &slot, 1).records, 1);
    same_refusal(slot.refusal, refusal.number, refusal.place);
    same_refusal(ugb_read_value(s, length, security_first).refusal, refusal.number, refusal.place);
    ugb_field_words(ugb_refused_field(s, length, security_first, record.refusal), found, sizeof found);
    SAME(strcmp(found, words), 0);
}

/* A number put into the section, and what is refused then. */
typedef struct wrong {
    size_t at;
    unsigned width;
    uint32_t number;
    ugb_refusal refusal;
    const char *words;
} wrong;

static void check_security(void)
{
    static const wrong examples[] = {
        {0, 2, 0x0083, {UGB_SENDER_KIND, 0}, "SecurityHeader Flags"},
        {0, 2, 0x0091, {UGB_AU_OR_AS, 0}, "SecurityHeader Flags"},
        {0, 2, 0x0181, {UGB_AU_OR_AS, 0}, "SecurityHeader Flags"},
        {0, 2, 0x0001, {UGB_EMPTY_OR_DP_CLEAR, 0}, "SecurityHeader Flags"},
        {8, 4, 65536, {UGB_CERTIFICATE_SIZE, 8}, "SenderCertSize"},
        {2, 2, 9, {UGB_IDENTITY, 2}, "SenderIdSize"},
        {16, 1, 2, {UGB_IDENTITY, 2}, "SenderIdSize"},
        {17, 1, 1, {UGB_IDENTITY, 2}, "SenderIdSize"},
        {0, 2, 0x00C1, {UGB_PROVIDER, 0}, "SecurityHeader"},
        {12, 4, 9, {UGB_PROVIDER, 0}, "SecurityHeader"},
        {12, 4, UGB_LIMIT, {UGB_ABOVE_THE_LIMIT, 0}, "SecurityHeader"},
        {44, 2, 0, {UGB_PROVIDER, 44}, "provider name unit 0"},
        {46, 2, 0, {UGB_PROVIDER, 46}, "provider name unit 1"},
        {48, 2, 'r', {UGB_PROVIDER, 48}, "provider name unit 2"},
        {44, 4, 0, {UGB_PROVIDER, 44}, "provider name unit 0"},
    };
    for (size_t i = 0; i < sizeof examples / sizeof *examples; i++) {
        put_whole();
        put(examples[i].at, examples[i].width, examples[i].number);
        refused_at(input, LENGTH, true, examples[i].refusal, examples[i].words);
    }
    put_security(0x0081, (const uint32_t[5]){0}, 16);
    refused_at(input, LENGTH, true, (ugb_refusal){UGB_EMPTY_OR_DP_CLEAR, 2}, "SenderIdSize");
    put(0, 2, 0x0001);
    refused_at(input, LENGTH, true, (ugb_refusal){UGB_EMPTY_OR_DP_CLEAR, 0}, "SecurityHeader Flags");
}

/* The places count from P; then without the SecurityHeader. */
static void check_properties(void)
{
    static const wrong examples[] = {
        {1, 1, 251, {UGB_LABEL_LENGTH, 1}, "LabelLength"},
        {2, 2, 0x8008, {UGB_CLASS, 2}, "MessageClass"},
        {36, 4, 1, {UGB_ALLOCATION, 36}, "AllocationBodySize"},
        {36, 4, UGB_LIMIT + 1, {UGB_ALLOCATION, 36}, "AllocationBodySize"},
        {32, 4, 3, {UGB_ALLOCATION, 36}, "AllocationBodySize"},
        {52, 4, UGB_LIMIT, {UGB_ABOVE_THE_LIMIT, 0}, "MessagePropertiesHeader"},
        {52, 4, 100, {UGB_INPUT_SHORT, 0}, "MessagePropertiesHeader"},
        {56, 2, 0, {UGB_LABEL, 56}, "label unit 0"},
        {58, 2, 0, {UGB_LABEL, 58}, "label unit 1"},
        {60, 2, 'r', {UGB_LABEL, 60}, "label unit 2"},
        {56, 4, 0, {UGB_LABEL, 56}, "label unit 0"},
    };
    for (size_t i = 0; i < sizeof examples / sizeof *examples; i++) {
        ugb_refusal behind = {examples[i].refusal.number, P + examples[i].refusal.place};
        put_whole();
        put(P + examples[i].at, examples[i].width, examples[i].number);
        refused_at(input, LENGTH, true, behind, examples[i].words);
        refused_at(input + P, LENGTH - P, false, examples[i].refusal, examples[i].words);
    }
}

static void check_short(void)
{
    put_whole();
    for (size_t end = 0; end < P; end++)
        refused_at(input, end, true, (ugb_refusal){UGB_INPUT_SHORT, 0}, "SecurityHeader");
    for (size_t end = P; end < LENGTH; end++) {
        refused_at(input, end, true, (ugb_refusal){UGB_INPUT_SHORT, P}, "MessagePropertiesHeader");
        refused_at(input + P, end - P, false, (ugb_refusal){UGB_INPUT_SHORT, 0}, "MessagePropertiesHeader");
    }
    same_refusal(ugb_read(input, LENGTH, true).refusal, UGB_ACCEPTED, 0);
}

static void same_field(ugb_field found, uint32_t field, size_t offset)
{
    SAME(found.field, field);
    SAME(found.offset, offset);
}

/* Every byte of a section with every field and padding, which is refused for its identity of 9 bytes. */
static void check_fields(void)
{
    static const uint8_t widths[] = {2, 2, 2, 2,  4, 4, 9, 3, 3, 1, 5, 3, 2, 2, 4, 6, 2,
                                     1, 1, 2, 20, 4, 4, 4, 4, 4, 4, 4, 4, 6, 5, 2, 3};
    const size_t p = 56, length = 56 + 72;
    size_t at = 0;
    put_whole();
    memmove(input + p, input + P, 72);
    put(2, 2, 9);
    for (uint32_t field = 1; field <= sizeof widths; field++)
        for (size_t offset = 0; offset < widths[field - 1]; offset++, at++) {
            same_field(ugb_field_at(input, length + 6, true, at), field, offset);
            same_field(ugb_field_at(input, at + 1, true, at), field, offset);
            same_field(ugb_field_at(input, at, true, at), UGB_FIELD_NONE, 0);
            if (at >= p)
                same_field(ugb_field_at(input + p, length - p, false, at - p), field, offset);
        }
    SAME(at, length);
    for (; at < length + 8; at++)
        same_field(ugb_field_at(input, length + 6, true, at), UGB_FIELD_NONE, 0);
    same_field(ugb_field_at(input + p, length, false, length - p), UGB_FIELD_NONE, 0);
    same_field(ugb_field_at(input, length, true, (size_t)1 << 32), UGB_FIELD_NONE, 0);
    same_field(ugb_field_at(input, length, true, SIZE_MAX), UGB_FIELD_NONE, 0);
    same_field(ugb_field_at(input + p, length, false, SIZE_MAX), UGB_FIELD_NONE, 0);
}

/* In every room: what fits of the words, a null, and nothing behind it. */
static void words_are(uint32_t field, size_t offset, const char *words)
{
    const ugb_field found = {field, offset};
    const size_t length = strlen(words);
    SAME(length < UGB_WORDS, true);
    SAME(ugb_field_words(found, NULL, 0), length);
    pattern();
    SAME(ugb_field_words(found, (char *)out + 1, 0), length);
    untouched_from(0);
    for (size_t room = 1; room <= UGB_WORDS; room++) {
        size_t kept = room <= length ? room - 1 : length;
        pattern();
        SAME(ugb_field_words(found, (char *)out, room), length);
        SAME(memcmp(out, words, kept), 0);
        SAME(out[kept], 0);
        untouched_from(kept + 1);
    }
}

static void check_words(void)
{
    words_are(UGB_FIELD_NONE, 0, "no field");
    words_are(UGB_FIELD_SENDER_ID_SIZE, 1, "SenderIdSize");
    words_are(UGB_FIELD_PROVIDER_TYPE, 2, "provider type");
    words_are(UGB_FIELD_PROVIDER_NAME, 6, "provider name unit 3");
    words_are(UGB_FIELD_PROVIDER_NAME, SIZE_MAX, "provider name unit 9223372036854775807");
    words_are(UGB_FIELD_PROVIDER_INFO_PADDING, 1, "padding behind the provider info");
    words_are(UGB_FIELD_EXTENSION_SIZE, 2, "ExtensionSize");
    words_are(UGB_FIELD_LABEL, 0, "label unit 0");
    words_are(UGB_FIELD_LABEL, 14, "label unit 7");
    words_are(UGB_FIELD_LABEL, 15, "label unit 7");
    words_are(UGB_FIELD_LABEL, 200, "label unit 100");
    words_are(UGB_FIELD_EXTENSION, 2, "extension");
    words_are(UGB_FIELD_SECURITY_HEADER, 0, "SecurityHeader");
    words_are(UGB_FIELD_MESSAGE_PROPERTIES_HEADER, 0, "MessagePropertiesHeader");
    words_are(36, 0, "unknown field");
}

int main(void)
{
    check_security();
    check_properties();
    check_short();
    check_fields();
    check_words();
    report();
    return 0;
}
