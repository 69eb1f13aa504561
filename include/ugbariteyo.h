/*
 * Ugbariteyo for C: reads, judges, copies and writes the section of a message-queue packet (an optional SecurityHeader
 * and a MessagePropertiesHeader), whole or in portions, the number that its body may be, the send requests and queue
 * formats around it, and the records of a day's file. "01" is the paper of exact rules that every function is proved to
 * follow, on every input.
 *
 * Link libugbariteyo.a (x86-64 Linux). Installed: cc prog.c $(pkg-config --cflags --libs ugbariteyo). It needs memcpy,
 * memmove and memset, and nothing else.
 *
 * Every call answers, for every input, and ends. Nothing has to be checked beforehand but the pointers: each one is
 * valid for the length beside it, for the length of the call, and an output overlaps none of the inputs. With a length
 * of 0 any pointer will do, NULL included; one to a struct points to a struct. Nothing is allocated, kept or shared:
 * the caller owns every byte, any number of threads may call, and a part in an answer is a place in the caller's own
 * input, or in all portions joined.
 *
 * An answer holds a refusal. Its number is 0 (UGB_ACCEPTED) where nothing is refused, and only there; else every other
 * value of the answer is 0 or false, and no byte of the output was written, but for the slots that ugb_read_day fills
 * before a bad record (15), and a ugb_finish that refuses the section is still the finish. Bytes of an output behind
 * what was written stay as they were. Unnamed bytes between the members of a struct hold anything: compare members, not
 * whole structs.
 *
 *     ugb_reading answer = ugb_read(bytes, length, true);
 *     if (answer.refusal.number != UGB_ACCEPTED) {
 *         char words[UGB_WORDS];
 *         ugb_field_words(ugb_refused_field(bytes, length, true, answer.refusal), words, sizeof words);
 *         fprintf(stderr, "refused %u at %zu (%s): %s\n", (unsigned)answer.refusal.number, answer.refusal.place, words,
 *                 ugb_refusal_text(answer.refusal.number));
 *     }
 *
 * Whether a SecurityHeader stands first, no byte of the section says: whoever has the section knows it from where it
 * came. ugb_send and ugb_next_record say it of theirs. Read the other way, a section may be accepted with wrong values.
 */
#ifndef UGBARITEYO_H
#define UGBARITEYO_H

#include <stdbool.h>
#include <stddef.h>
#include <stdint.h>

#ifdef __cplusplus
extern "C" {
#endif

#define UGB_VERSION_MAJOR 2
#define UGB_VERSION_MINOR 3
#define UGB_VERSION_PATCH 0
#define UGB_VERSION "2.3.0"

/* 01: a section has at most so many bytes. */
#define UGB_LIMIT 4194304

/* ---- Refusals */

/* Every refusal: its name behind UGB_, its number, and the rule that was broken. A section is read with 1 to 12, in
 * portions with 14 too, and written with 28, 2 to 4 and 6 to 12; a day's file is read with 16 and 15; a request is
 * refused with 8, 10, 11 and 20 to 29; an image is read with 1 (under 4 bytes) and 30 to 33, and written with 30 to 33;
 * a body's number is read with 1 to 12, then 62, 60 and 61, of a body alone with 60 and 61, and written with 60; 13
 * comes last in every call that writes bytes. */
#define UGB_REFUSALS(X)                                                                                                \
    X(INPUT_SHORT, 1, "input ends before the section does")                                                            \
    X(SENDER_KIND, 2, "ST above 2")                                                                                    \
    X(AU_OR_AS, 3, "AU or AS not zero")                                                                                \
    X(EMPTY_OR_DP_CLEAR, 4, "all five sizes zero, or DP clear")                                                        \
    X(CERTIFICATE_SIZE, 5, "SenderCertSize above 65,535")                                                              \
    X(IDENTITY, 6, "SenderIdSize or identity not as ST asks")                                                          \
    X(PROVIDER, 7, "ProviderInfoSize or provider info not as DE and signature ask")                                    \
    X(ABOVE_THE_LIMIT, 8, "longer than 4,194,304 bytes")                                                               \
    X(LABEL_LENGTH, 9, "LabelLength above 250, or a label of an odd number of bytes")                                  \
    X(CLASS, 10, "MessageClass not listed")                                                                            \
    X(ALLOCATION, 11, "AllocationBodySize below MessageSize or above 4,194,304")                                       \
    X(LABEL, 12, "label in which not only the last unit is zero")                                                      \
    X(OUTPUT_SHORT, 13, "output too short")                                                                            \
    X(AFTER_THE_FINISH, 14, "portion or finish after the finish")                                                      \
    X(BAD_RECORD, 15, "wrong or cut record head, or cut section")                                                      \
    X(TOO_MANY_RECORDS, 16, "more records than slots, or than 256")                                                    \
    X(VALUE_OUT_OF_RANGE, 20,                                                                                          \
      "priority above 7, trace or delivery above 1, acknowledge above 15, or auditing above 3")                        \
    X(PRIVACY, 21, "privacy not 0, 1 or 2")                                                                            \
    X(PRIVACY_ON_A_DIRECT_QUEUE, 22, "direct queue with privacy not 0")                                                \
    X(ALGORITHM_ABSENT, 23, "privacy present, algorithm absent")                                                       \
    X(HASH_ABSENT, 24, "signature bytes given, hash absent")                                                           \
    X(REQUEST_IDENTITY, 25, "sender kind above 2, or identity not as its kind asks")                                   \
    X(REQUEST_PROVIDER, 26,                                                                                            \
      "default provider without type 1, or another provider without a name of 1 to 1,024 units")                       \
    X(SPLIT_NUMBER, 27, "split number minus name length below 1 or above the signature bytes given")                   \
    X(PART_TOO_LARGE, 28, "key, signature or certificate above 65,535 bytes")                                          \
    X(RETIRED, 29, "privacy 1, or signature bytes given with hash MD2, MD4 or MD5")                                    \
    X(QUEUE_TYPE, 30, "queue type above 8")                                                                            \
    X(QUEUE_SUFFIX, 31, "suffix and flags do not go with the queue type")                                              \
    X(QUEUE_VALUE, 32, "value length wrong for the queue type")                                                        \
    X(QUEUE_STRING, 33, "string not ended by its only zero unit, too short or above 1,024 units")                      \
    X(BODY_TYPE, 60, "BodyType none of 3, 4, 5 and 19")                                                                \
    X(BODY_SIZE, 61, "MessageSize not 4, or not 8 for BodyType 5")                                                     \
    X(BODY_ENCRYPTED, 62, "EB set")

/* UGB_INPUT_SHORT to UGB_BODY_ENCRYPTED, and UGB_ACCEPTED where nothing is refused. */
#define UGB_REFUSAL_NUMBER(name, number, text) UGB_##name = number,
enum ugb_refusal_number { UGB_ACCEPTED = 0, UGB_REFUSALS(UGB_REFUSAL_NUMBER) };

/* The rule behind a number; "accepted" for 0. */
static inline const char *ugb_refusal_text(uint32_t number)
{
#define UGB_REFUSAL_TEXT(name, number, text)                                                                           \
    case number:                                                                                                       \
        return text;
    switch (number) {
    case UGB_ACCEPTED:
        return "accepted";
        UGB_REFUSALS(UGB_REFUSAL_TEXT)
    default:
        return "unknown refusal";
    }
}

/* The place of a refusal by reading is the offset of what failed in the input, or in all portions joined; by the
 * section writer, that in the section that would be written. The MessagePropertiesHeader begins at p.
 *
 *     1, 8   the header's start, 0 or p
 *     2, 3   0, Flags
 *     4      0, Flags, where DP is clear; else 2, SenderIdSize
 *     5      8, SenderCertSize
 *     6      2, SenderIdSize
 *     7      for ProviderInfoSize 0, the header's start; for the provider name its first unit that breaks the rule
 *     9      p + 1, LabelLength
 *     10     p + 2, MessageClass
 *     11     p + 36, AllocationBodySize
 *     12     the label's first unit that breaks the rule
 *     15     no offset: the record's number in the file, from 0
 *
 * By the rule only the last unit is zero. The first zero unit before the last one breaks it; where there is none, the
 * last one does. */
typedef struct ugb_refusal {
    uint32_t number; /* one of the numbers above */
    size_t place;    /* as above; 0 for 13, 14, 16, 28, 60 to 62, requests and images */
} ugb_refusal;

/* ---- Bytes, units and parts */

/* What is lent to a call; where there is none, NULL and 0. */
typedef struct ugb_bytes {
    const uint8_t *bytes; /* the first */
    size_t length;        /* how many */
} ugb_bytes;

/* The same in 16-bit units. */
typedef struct ugb_units {
    const uint16_t *units; /* the first */
    size_t count;          /* how many */
} ugb_units;

/* Where a part lies in the input that was read. */
typedef struct ugb_part {
    size_t start;  /* in bytes, from the input's first byte */
    size_t length; /* in bytes */
} ugb_part;

/* The bytes of a part of s; NULL and 0 of an empty one. */
static inline ugb_bytes ugb_bytes_of(ugb_part part, const uint8_t *s)
{
    ugb_bytes found = {part.length == 0 ? NULL : s + part.start, part.length};
    return found;
}

/* ---- Reading a section */

/* The judged fields of the SecurityHeader's 16 fixed bytes. */
typedef struct ugb_security_fields {
    uint32_t flags;             /* Flags, bits 0 to 11: ST 0 to 3, AU 4, EB 5, DE 6, DP 7, AS 8 to 11 */
    size_t sender_id_size;      /* SenderIdSize, in bytes */
    size_t encryption_key_size; /* EncryptionKeySize, in bytes */
    size_t signature_size;      /* SignatureSize, in bytes */
    size_t sender_cert_size;    /* SenderCertSize, in bytes */
    size_t provider_info_size;  /* ProviderInfoSize, in bytes */
} ugb_security_fields;

/* The SecurityHeader's parts, without their padding. */
typedef struct ugb_security_parts {
    ugb_part sender_id;      /* identity */
    ugb_part encryption_key; /* key */
    ugb_part signature;      /* signature */
    ugb_part sender_cert;    /* certificate */
    ugb_part provider_info;  /* provider info: a 4-byte type, then the name */
    size_t length;           /* the header's length in bytes, padding included: where the next header begins */
} ugb_security_parts;

/* What reading finds in a SecurityHeader; all zero where none stands first. */
typedef struct ugb_security_header {
    ugb_security_fields fields;      /* the fixed fields */
    ugb_security_parts parts;        /* where the parts lie */
    uint8_t sid_revision;            /* the identity's first byte for ST 1, else 0 */
    uint8_t sid_sub_authority_count; /* the identity's second byte for ST 1, else 0 */
    uint32_t provider_type;          /* the type at the front of the provider info, 0 where there is none */
} ugb_security_header;

/* The judged fields of the MessagePropertiesHeader's 56 fixed bytes. */
typedef struct ugb_properties_fields {
    uint8_t flags;                 /* Flags, low four bits: PA 0x01, PR 0x02, NA 0x04, NR 0x08 */
    uint32_t label_length;         /* LabelLength, in 16-bit units, the null included */
    uint16_t message_class;        /* MessageClass */
    uint32_t body_type;            /* BodyType */
    size_t message_size;           /* MessageSize, in bytes */
    size_t allocation_body_size;   /* AllocationBodySize, in bytes */
    uint32_t privacy_level;        /* PrivacyLevel */
    uint32_t hash_algorithm;       /* HashAlgorithm */
    uint32_t encryption_algorithm; /* EncryptionAlgorithm */
    size_t extension_size;         /* ExtensionSize, in bytes */
} ugb_properties_fields;

/* The MessagePropertiesHeader's parts. */
typedef struct ugb_properties_parts {
    ugb_part label;        /* label: 16-bit units, little-endian, the null included */
    ugb_part extension;    /* extension */
    ugb_part body;         /* body: MessageSize bytes */
    size_t section_length; /* the whole section's length in bytes, the padding at its end included */
} ugb_properties_parts;

/* 01's summary. Label and provider name are had through their parts. The verdicts refuse nothing. Privacy levels 1 and 3
 * allow RC2 and RC4 (0x6602, 0x6801), level 5 allows AES (0x660E, 0x660F, 0x6610); no other level allows any. MD2, MD4
 * and MD5 are 0x8001, 0x8002 and 0x8003. */
typedef struct ugb_summary {
    bool security_first;              /* whether a SecurityHeader stands first, as the caller said */
    ugb_security_header security;     /* the SecurityHeader */
    ugb_properties_fields properties; /* the MessagePropertiesHeader's fields */
    ugb_properties_parts parts;       /* the MessagePropertiesHeader's parts */
    bool authentication_fails;        /* PrivacyLevel, or HashAlgorithm beside a signature, is none of those listed */
    bool decryption_fails;            /* EB is set, and EncryptionAlgorithm is none that PrivacyLevel allows */
    bool retired;                     /* PrivacyLevel is 1, or HashAlgorithm beside a signature is MD2, MD4 or MD5 */
} ugb_summary;

/* 01's full reading. Private parts are had through their parts. */
typedef struct ugb_section {
    ugb_summary summary;      /* the summary */
    ugb_part correlation_id;  /* CorrelationID, 20 bytes */
    uint32_t application_tag; /* ApplicationTag */
} ugb_section;

typedef struct ugb_summarized {
    ugb_refusal refusal; /* 0, or 1 to 12; of ugb_finish also 14 */
    ugb_summary summary; /* the summary; all zero where refused */
} ugb_summarized;

typedef struct ugb_reading {
    ugb_refusal refusal; /* 0, or 1 to 12 */
    ugb_section section; /* the full reading; all zero where refused */
} ugb_reading;

/* The label for display: a place in the input, or the caller's own stand-in. */
typedef struct ugb_label {
    bool stand_in; /* whether to show the stand-in: LabelLength is 0, or reading is refused */
    ugb_part part; /* else the label, null included; 0 and 0 where the stand-in is shown */
} ugb_label;

/* The full reading of the section at the first of s_length bytes. Bytes behind the section are not read. */
ugb_reading ugb_read(const uint8_t *s, size_t s_length, bool security_first);

/* The summary alone. Refused exactly as ugb_read is. */
static inline ugb_summarized ugb_summarize(const uint8_t *s, size_t s_length, bool security_first)
{
    ugb_reading reading = ugb_read(s, s_length, security_first);
    ugb_summarized answer = {reading.refusal, reading.section.summary};
    return answer;
}

/* Whether both inputs are accepted, with the same summary, label and provider name by content: exactly when they agree
 * in every judged bit, and exactly when their support copies are the same bytes. */
bool ugb_same_summary(const uint8_t *a, size_t a_length, const uint8_t *b, size_t b_length, bool security_first);

/* What to show as the label of that section. Never refused. */
ugb_label ugb_label_shown(const uint8_t *s, size_t s_length, bool security_first);

/* ---- The field at a place */

/* Every field and part of a section in the order of their bytes, then the headers: its name behind UGB_FIELD_, its
 * number, and what to call it. */
#define UGB_FIELDS(X)                                                                                                  \
    X(SECURITY_FLAGS, 1, "SecurityHeader Flags")                                                                       \
    X(SENDER_ID_SIZE, 2, "SenderIdSize")                                                                               \
    X(ENCRYPTION_KEY_SIZE, 3, "EncryptionKeySize")                                                                     \
    X(SIGNATURE_SIZE, 4, "SignatureSize")                                                                              \
    X(SENDER_CERT_SIZE, 5, "SenderCertSize")                                                                           \
    X(PROVIDER_INFO_SIZE, 6, "ProviderInfoSize")                                                                       \
    X(SENDER_ID, 7, "identity")                                                                                        \
    X(SENDER_ID_PADDING, 8, "padding behind the identity")                                                             \
    X(ENCRYPTION_KEY, 9, "key")                                                                                        \
    X(ENCRYPTION_KEY_PADDING, 10, "padding behind the key")                                                            \
    X(SIGNATURE, 11, "signature")                                                                                      \
    X(SIGNATURE_PADDING, 12, "padding behind the signature")                                                           \
    X(SENDER_CERT, 13, "certificate")                                                                                  \
    X(SENDER_CERT_PADDING, 14, "padding behind the certificate")                                                       \
    X(PROVIDER_TYPE, 15, "provider type")                                                                              \
    X(PROVIDER_NAME, 16, "provider name")                                                                              \
    X(PROVIDER_INFO_PADDING, 17, "padding behind the provider info")                                                   \
    X(FLAGS, 18, "MessagePropertiesHeader Flags")                                                                      \
    X(LABEL_LENGTH, 19, "LabelLength")                                                                                 \
    X(MESSAGE_CLASS, 20, "MessageClass")                                                                               \
    X(CORRELATION_ID, 21, "CorrelationID")                                                                             \
    X(BODY_TYPE, 22, "BodyType")                                                                                       \
    X(APPLICATION_TAG, 23, "ApplicationTag")                                                                           \
    X(MESSAGE_SIZE, 24, "MessageSize")                                                                                 \
    X(ALLOCATION_BODY_SIZE, 25, "AllocationBodySize")                                                                  \
    X(PRIVACY_LEVEL, 26, "PrivacyLevel")                                                                               \
    X(HASH_ALGORITHM, 27, "HashAlgorithm")                                                                             \
    X(ENCRYPTION_ALGORITHM, 28, "EncryptionAlgorithm")                                                                 \
    X(EXTENSION_SIZE, 29, "ExtensionSize")                                                                             \
    X(LABEL, 30, "label")                                                                                              \
    X(EXTENSION, 31, "extension")                                                                                      \
    X(BODY, 32, "body")                                                                                                \
    X(PADDING, 33, "padding at the end")                                                                               \
    X(SECURITY_HEADER, 34, "SecurityHeader")                                                                           \
    X(MESSAGE_PROPERTIES_HEADER, 35, "MessagePropertiesHeader")

/* UGB_FIELD_SECURITY_FLAGS to UGB_FIELD_MESSAGE_PROPERTIES_HEADER, and UGB_FIELD_NONE where there is none. */
#define UGB_FIELD_NUMBER(name, number, text) UGB_FIELD_##name = number,
enum ugb_field_number { UGB_FIELD_NONE = 0, UGB_FIELDS(UGB_FIELD_NUMBER) };

/* What a number is called; "no field" for 0. */
static inline const char *ugb_field_text(uint32_t number)
{
#define UGB_FIELD_TEXT(name, number, text)                                                                             \
    case number:                                                                                                       \
        return text;
    switch (number) {
    case UGB_FIELD_NONE:
        return "no field";
        UGB_FIELDS(UGB_FIELD_TEXT)
    default:
        return "unknown field";
    }
}

typedef struct ugb_field {
    uint32_t field; /* one of the numbers above */
    size_t offset;  /* of the byte in it; 0 where it is a header, or none */
} ugb_field;

/* What a refusal by reading s is about, or of a record by reading its section: the header for 1, 8 and 7 at place 0;
 * else what holds the byte at its place, as ugb_field_at says. UGB_FIELD_NONE for a number above 12, which is about no
 * field. (A refused writer leaves no section to look into.) */
ugb_field ugb_refused_field(const uint8_t *s, size_t s_length, bool security_first, ugb_refusal refusal);

/* What holds the byte at a place of s, as the section's own fixed bytes lay it out, whether it is accepted or refused;
 * UGB_FIELD_NONE where s or its section has no such byte. */
static inline ugb_field ugb_field_at(const uint8_t *s, size_t s_length, bool security_first, size_t place)
{
    ugb_refusal at = {UGB_ACCEPTED, place};
    return ugb_refused_field(s, s_length, security_first, at);
}

/* Puts a text behind the first `at` bytes of an output, as far as there is room; gives where it ends, or would. */
static inline size_t ugb_put_text(const char *text, size_t at, char *out, size_t out_length)
{
    for (; *text != 0; text++, at++)
        if (at < out_length)
            out[at] = *text;
    return at;
}

/* So many bytes have room for any field in words. */
#define UGB_WORDS 64

/* The field in words, as it is read out: "SenderIdSize", "label unit 7"; the units of label and provider name count
 * from 0. As of snprintf: gives the words' length, cuts what has no room, and ends with a null where there is any. */
static inline size_t ugb_field_words(ugb_field found, char *out, size_t out_length)
{
    char digits[21] = {0}; /* of the unit, up to the last */
    size_t first = 20, unit = found.offset / 2;
    size_t length = ugb_put_text(ugb_field_text(found.field), 0, out, out_length);
    if (found.field == UGB_FIELD_LABEL || found.field == UGB_FIELD_PROVIDER_NAME) {
        do
            digits[--first] = (char)('0' + unit % 10);
        while ((unit /= 10) != 0);
        length = ugb_put_text(digits + first, ugb_put_text(" unit ", length, out, out_length), out, out_length);
    }
    if (out_length > 0)
        out[length < out_length ? length : out_length - 1] = 0;
    return length;
}

/* ---- A section in portions */

/* What is kept of a section that comes in portions, whatever its length. It lies where the caller puts it, but its
 * members are the library's own: only a state that ugb_start, ugb_portion and ugb_finish made answers for a section. It
 * may be copied, to go back to that point: each copy goes on by itself. Private bytes are among its own, CorrelationID,
 * ApplicationTag, X bits, the two behind the SecurityHeader's fixed ones, and where that header's sizes go above the
 * limit whatever came there: it is not for support mail. */
typedef struct ugb_portions {
    size_t counters[10];      /* what was counted and judged; of the bytes below, those that did not come are 0 */
    uint8_t head[18];         /* the SecurityHeader's fixed bytes, and the two behind them, the identity's if any */
    uint8_t provider_type[4]; /* the type at the front of the provider info */
    uint8_t properties[556];  /* the MessagePropertiesHeader's fixed bytes, and the label */
} ugb_portions;

/* sizeof(ugb_portions), to plan with. */
#define UGB_PORTIONS_SIZE 664

/* What the archive has: ugb_portion and ugb_finish call it, with the state's own 10 numbers, 18, 4 and 556 bytes. */
ugb_refusal ugb_portion_positional(size_t *counters, uint8_t *head, uint8_t *provider_type, uint8_t *properties,
                                   const uint8_t *bytes, size_t length);
ugb_summarized ugb_finish_positional(size_t *counters, const uint8_t *head, const uint8_t *provider_type,
                                     const uint8_t *properties);

/* The start of a section that comes a few bytes at a time, where there is no room for the whole.
 *
 *     ugb_portions state = ugb_start(security_first);
 *     uint8_t buffer[32];
 *     for (size_t length; (length = receive(buffer, sizeof buffer)) != 0;)
 *         ugb_portion(&state, buffer, length);
 *     ugb_summarized answer = ugb_finish(&state);
 *     if (answer.refusal.number == UGB_ACCEPTED)
 *         show(ugb_label_held(&state, &answer.summary));
 *
 * The answer is that of ugb_summarize for all portions joined, wherever they were cut, inside a field or a unit too. No
 * portion at all is the empty input.
 *
 * Of the parts the label alone is held. The provider name is judged as it passes: of it the summary has the place and
 * the length, both in security.parts.provider_info, and the type, but its content is not had from portions.
 * ugb_refused_field looks into the section, so of a refusal there are only number and place. */
ugb_portions ugb_start(bool security_first);

/* Takes the next bytes, or none. Those behind the section are not read, in any number. What is wrong with the section
 * is said at the finish; a portion is refused only after that, with 14, and the state stays as it was. */
static inline ugb_refusal ugb_portion(ugb_portions *state, const uint8_t *bytes, size_t length)
{
    return ugb_portion_positional(state->counters, state->head, state->provider_type, state->properties, bytes, length);
}

/* The answer, once the sender says that the section is finished. Refused as ugb_summarize is, which is a finish too;
 * after the finish with 14, and the state stays as it was. The next section begins with ugb_start. */
static inline ugb_summarized ugb_finish(ugb_portions *state)
{
    return ugb_finish_positional(state->counters, state->head, state->provider_type, state->properties);
}

/* The bytes of the label, null included, in the state that ugb_finish gave this summary of; NULL and 0 of an empty
 * label, or of a refusal. */
static inline ugb_bytes ugb_label_held(const ugb_portions *state, const ugb_summary *summary)
{
    ugb_part label = {56, summary->parts.label.length};
    return ugb_bytes_of(label, state->properties);
}

/* ---- Writing to a lent output, from its first byte on */

typedef struct ugb_output {
    ugb_refusal refusal; /* 0, or why nothing was written */
    size_t length;       /* how many bytes were written; 0 where refused */
} ugb_output;

/* The support copy: the section with every private bit zero. Refused as ugb_read is, then with 13 where out_length
 * is below the section's length. */
ugb_output ugb_support_copy(const uint8_t *s, size_t s_length, bool security_first, uint8_t *out, size_t out_length);

/* Whether a copy, whoever made it, is the support copy of the section at the first of s_length bytes: byte for byte, in
 * its exact length, which is the section's. False where the section is refused; ugb_read says with what. Neither the
 * section's private bits nor the bytes behind it count, and nothing is written. The copy may be the section itself: true
 * then says that it holds nothing private. */
bool ugb_is_support_copy(const uint8_t *s, size_t s_length, bool security_first, const uint8_t *copy,
                         size_t copy_length);

/* The values of a section. The sizes come from the parts. */
typedef struct ugb_section_values {
    bool security_first;           /* whether a SecurityHeader is written; else its values and parts are ignored */
    uint16_t security_flags;       /* its Flags, as in ugb_security_fields; X bits are written zero */
    uint8_t flags;                 /* Flags, as in ugb_properties_fields; X bits are written zero */
    uint16_t message_class;        /* MessageClass */
    uint32_t body_type;            /* BodyType */
    uint32_t application_tag;      /* ApplicationTag */
    size_t allocation_body_size;   /* AllocationBodySize, in bytes */
    uint32_t privacy_level;        /* PrivacyLevel */
    uint32_t hash_algorithm;       /* HashAlgorithm */
    uint32_t encryption_algorithm; /* EncryptionAlgorithm */
    uint8_t correlation_id[20];    /* CorrelationID */
} ugb_section_values;

/* The parts of a section. An absent one has the length 0. */
typedef struct ugb_section_parts {
    ugb_bytes sender_id;      /* identity */
    ugb_bytes encryption_key; /* key */
    ugb_bytes signature;      /* signature */
    ugb_bytes sender_cert;    /* certificate */
    ugb_bytes provider_info;  /* provider info: a 4-byte type, then the name with its null */
    ugb_bytes label;          /* label: 16-bit units, little-endian, with their null */
    ugb_bytes extension;      /* extension */
    ugb_bytes body;           /* body */
} ugb_section_parts;

/* What the archive has, and the parts as it takes them, in turn: ugb_write_section calls it. */
#define UGB_BYTES(lent) (lent).bytes, (lent).length
#define UGB_SECTION_PARTS(parts)                                                                                       \
    UGB_BYTES((parts)->sender_id), UGB_BYTES((parts)->encryption_key), UGB_BYTES((parts)->signature),                  \
        UGB_BYTES((parts)->sender_cert), UGB_BYTES((parts)->provider_info), UGB_BYTES((parts)->label),                 \
        UGB_BYTES((parts)->extension), UGB_BYTES((parts)->body)
ugb_output ugb_write_section_positional(ugb_section_values values, const uint8_t *sender_id, size_t sender_id_length,
                                        const uint8_t *encryption_key, size_t encryption_key_length,
                                        const uint8_t *signature, size_t signature_length, const uint8_t *sender_cert,
                                        size_t sender_cert_length, const uint8_t *provider_info,
                                        size_t provider_info_length, const uint8_t *label, size_t label_length,
                                        const uint8_t *extension, size_t extension_length, const uint8_t *body,
                                        size_t body_length, uint8_t *out, size_t out_length);

/* The section of these values and parts, padding and X bits zero. Refused with 28, then 2 to 4 and 6 to 12 by the steps
 * of reading, then 13. */
static inline ugb_output ugb_write_section(const ugb_section_values *values, const ugb_section_parts *parts,
                                           uint8_t *out, size_t out_length)
{
    return ugb_write_section_positional(*values, UGB_SECTION_PARTS(parts), out, out_length);
}

/* What the writer takes of a reading of s: what it then writes is what was read, but for X bits and padding, which are
 * zero. Of a refused reading: zeros, and no parts. */
static inline ugb_section_values ugb_values_of(const ugb_section *section, const uint8_t *s)
{
    const ugb_properties_fields *properties = &section->summary.properties;
    ugb_bytes correlation_id = ugb_bytes_of(section->correlation_id, s);
    ugb_section_values values = {section->summary.security_first,
                                 (uint16_t)section->summary.security.fields.flags,
                                 properties->flags,
                                 properties->message_class,
                                 properties->body_type,
                                 section->application_tag,
                                 properties->allocation_body_size,
                                 properties->privacy_level,
                                 properties->hash_algorithm,
                                 properties->encryption_algorithm,
                                 {0}};
    for (size_t i = 0; i < correlation_id.length; i++)
        values.correlation_id[i] = correlation_id.bytes[i];
    return values;
}

static inline ugb_section_parts ugb_parts_of(const ugb_section *section, const uint8_t *s)
{
    const ugb_security_parts *security = &section->summary.security.parts;
    const ugb_properties_parts *properties = &section->summary.parts;
    ugb_section_parts parts = {
        ugb_bytes_of(security->sender_id, s),     ugb_bytes_of(security->encryption_key, s),
        ugb_bytes_of(security->signature, s),     ugb_bytes_of(security->sender_cert, s),
        ugb_bytes_of(security->provider_info, s), ugb_bytes_of(properties->label, s),
        ugb_bytes_of(properties->extension, s),   ugb_bytes_of(properties->body, s),
    };
    return parts;
}

/* ---- A body that is a number */

/* BodyType of a body that is a single number, little-endian: MS-MQMQ's names (2.2.12). */
enum ugb_body_type {
    UGB_VT_I4 = 3,  /* signed, in 4 bytes, two's complement */
    UGB_VT_R4 = 4,  /* a float, in 4 bytes */
    UGB_VT_R8 = 5,  /* a float, in 8 bytes */
    UGB_VT_UI4 = 19 /* unsigned, in 4 bytes */
};

/* The number, of one of four kinds. Every bit pattern is kept, of a float too: the payload of a NaN, whether it is a
 * signalling one, and the sign of a zero; two are the same where body_type and bits are. Of a number in 4 bytes the
 * upper half of bits is 0 when it is read, and not looked at when it is written: setting i32, u32 or f32 is enough. */
typedef struct ugb_body_value {
    uint32_t body_type; /* which kind: one of the four */
    union {
        int32_t i32;   /* the number, for UGB_VT_I4 */
        uint32_t u32;  /* for UGB_VT_UI4 */
        float f32;     /* for UGB_VT_R4 */
        double f64;    /* for UGB_VT_R8 */
        uint64_t bits; /* its bit pattern, for each of them */
    };
} ugb_body_value;

typedef struct ugb_value_read {
    ugb_refusal refusal;  /* 0, or 1 to 12, or 60 to 62 at place 0 */
    ugb_body_value value; /* the number; all zero where refused */
} ugb_value_read;

/* The number that is the body of the section at the first of s_length bytes. Refused as ugb_read is, then with 62 where
 * EB is set, as the body is no number before it is decrypted; with 60 where BodyType is none of the four; with 61 where
 * MessageSize is not 4, or not 8 for UGB_VT_R8. */
ugb_value_read ugb_read_value(const uint8_t *s, size_t s_length, bool security_first);

/* The number that is a body of this BodyType, for who has the two from elsewhere: once the body is decrypted, or out of
 * a reading. Refused with 60, then 61. */
ugb_value_read ugb_value_of(uint32_t body_type, const uint8_t *body, size_t body_length);

/* The body that is this number, in 4 or 8 bytes; where it was read, those that it was read from. With a body_type that
 * is none of the four it is no number and refused with 60; then with 13. To send one, a request has both:
 *
 *     ugb_body_value flux = {.body_type = UGB_VT_R8, .f64 = 0.0625};
 *     uint8_t body[8];
 *     size_t size = ugb_write_value(flux, body, sizeof body).length;
 *     ugb_request request = {
 *         .body_type = {true, flux.body_type}, .body_given = true, .allocation_body_size = size};
 *     ugb_request_parts parts = {.body = {body, size}}; */
ugb_output ugb_write_value(ugb_body_value value, uint8_t *out, size_t out_length);

/* ---- Send requests */

/* A number that may be absent. */
typedef struct ugb_number {
    bool given;      /* whether it is there */
    uint32_t number; /* the number; not looked at where absent, and 0 in an answer */
} ugb_number;

/* The numbers and marks of a send request (002). Every request gives both times. {0} gives nothing else, and each of
 * them as 0: its time to queue is 0xFFFFFFFF, its time to live 0 seconds. */
typedef struct ugb_request {
    ugb_number priority;             /* priority, 0 to 7; absent: 3. Every other number that is absent counts as 0 */
    ugb_number trace;                /* trace, 0 or 1 */
    ugb_number delivery;             /* delivery, 0 or 1; a transaction makes it 1 */
    ugb_number auditing;             /* auditing, 0 to 3 */
    ugb_number message_class;        /* class */
    ugb_number acknowledge;          /* acknowledge, 0 to 15: the properties Flags */
    ugb_number application_tag;      /* tag */
    ugb_number privacy_level;        /* privacy, 0 or 2, of which a packet holds 0 or 3; 1, 40-bit, is retired */
    ugb_number hash_algorithm;       /* hash; beside a signature MD2, MD4 and MD5 are retired */
    ugb_number encryption_algorithm; /* encryption algorithm */
    ugb_number body_type;            /* body type; of a body that is a number, one of ugb_body_type */
    ugb_number sender_kind;          /* sender kind, 0 to 2 */
    ugb_number provider_type;        /* provider type */
    ugb_number split_number;         /* pulAuthProvNameLenProp; absent: the signature is not cut */
    uint32_t provider_name_length;   /* ulProvNameLen, which is taken from the split number */
    uint32_t time_to_queue;          /* ulAbsoluteTimeToQueue, in seconds; 0 becomes 0xFFFFFFFF */
    uint32_t time_to_live;           /* ulRelativeTimeToLive, in seconds; passed on as given, 0 too */
    bool correlation_given;          /* whether a CorrelationID is given; else it is zero, whatever stands there */
    uint8_t correlation_id[20];      /* CorrelationID */
    bool body_given;                 /* whether a body is given; else its size and allocation are 0, whatever is lent */
    size_t allocation_body_size;     /* ulAllocBodyBufferInBytes, of a body that is given */
    bool transaction;                /* whether the message is sent in a transaction */
    bool direct_queue;               /* whether the queue is a direct one */
    bool default_provider;           /* whether the default provider signs */
    bool encryption;                 /* whether encryption is asked for; without a key it counts as not asked */
} ugb_request;

/* The parts of a request. An absent one has the length 0. */
typedef struct ugb_request_parts {
    ugb_units title;          /* title: cut at its first null and at 249 units; a null is added */
    ugb_bytes sender_id;      /* identity */
    ugb_bytes encryption_key; /* key */
    ugb_bytes signature;      /* signature bytes, before the split number cuts them */
    ugb_bytes sender_cert;    /* certificate */
    ugb_units provider_name;  /* provider name, without a null */
    ugb_bytes extension;      /* extension */
    ugb_bytes body;           /* body */
} ugb_request_parts;

/* What no section carries. */
typedef struct ugb_handling {
    bool known;                    /* whether the values below are known: of a request they are, of a section not */
    uint32_t priority;             /* priority */
    uint32_t trace;                /* trace */
    uint32_t delivery;             /* delivery */
    uint32_t auditing;             /* auditing */
    bool transaction;              /* the transaction */
    bool direct_queue;             /* the direct-queue mark */
    ugb_number split_number;       /* the split number, where the request gives one */
    uint32_t provider_name_length; /* the name-length number */
    uint32_t time_to_queue;        /* time to queue, in seconds: the request's, or 0xFFFFFFFF for its 0 */
    uint32_t time_to_live;         /* time to live, in seconds: the request's */
} ugb_handling;

/* What only a SecurityHeader carries. */
typedef struct ugb_sender {
    bool known;            /* whether the values below are known: of a request, and of a section with that header */
    uint32_t kind;         /* sender kind; of a section ST */
    bool default_provider; /* default provider; of a section DE */
    bool encryption;       /* encryption, asked for with a key; of a section EB */
} ugb_sender;

/* A request's privacy (the retired 1 only of a section), or a PrivacyLevel that no request's privacy becomes. */
typedef struct ugb_privacy {
    bool packet;    /* whether it is such a PrivacyLevel: of a request false, of a section where it is not 0, 1 or 3 */
    uint32_t level; /* it, as the packet holds it; else the request's 0, 1 or 2, which a packet holds as 0, 1 or 3 */
} ugb_privacy;

/* The properties of a message: of a request once each absent value has its default, or of a section that was read. Of a
 * request all is known; what a section does not carry is not known, and 0 or false. */
typedef struct ugb_properties {
    ugb_handling handling;         /* what no section carries */
    ugb_sender sender;             /* what only a SecurityHeader carries */
    ugb_number provider_type;      /* what only provider info carries: given of a request, and of a section with it */
    uint32_t message_class;        /* class */
    uint32_t acknowledge;          /* acknowledge; of a section Flags */
    uint32_t application_tag;      /* tag */
    ugb_privacy privacy_level;     /* privacy */
    uint32_t hash_algorithm;       /* hash */
    uint32_t encryption_algorithm; /* encryption algorithm */
    uint32_t body_type;            /* body type */
    size_t message_size;           /* the body's bytes */
    size_t allocation_body_size;   /* the body's allocation */
    uint32_t title;                /* how many 16-bit units of the title are kept; of a label all but its null */
    size_t signature;              /* how many bytes of the signature are kept, the last ones; of a section all of it */
} ugb_properties;

typedef struct ugb_defaulted_answer {
    ugb_refusal refusal;        /* 0, 8, 10, 11 or 20 to 29, at place 0 */
    ugb_properties properties;  /* the defaulted properties; all zero where refused */
    uint8_t correlation_id[20]; /* the CorrelationID, zero where absent or refused */
} ugb_defaulted_answer;

typedef struct ugb_sent {
    ugb_refusal refusal; /* 0, or as ugb_defaulted refuses, or 13; at place 0 */
    size_t length;       /* how many bytes were written; 0 where refused */
    bool security_first; /* whether a SecurityHeader stands first in them, as ugb_read asks; false where refused */
} ugb_sent;

/* What the archive has, and the parts as it takes them, in turn: ugb_defaulted and ugb_send call them. */
#define UGB_REQUEST_PARAMETERS                                                                                         \
    ugb_request request, const uint16_t *title, size_t title_units, const uint8_t *sender_id, size_t sender_id_length, \
        const uint8_t *encryption_key, size_t encryption_key_length, const uint8_t *signature,                         \
        size_t signature_length, const uint8_t *sender_cert, size_t sender_cert_length, const uint16_t *provider_name, \
        size_t provider_name_units, const uint8_t *extension, size_t extension_length, const uint8_t *body,            \
        size_t body_length
#define UGB_UNITS(lent) (lent).units, (lent).count
#define UGB_REQUEST_PARTS(parts)                                                                                       \
    UGB_UNITS((parts)->title), UGB_BYTES((parts)->sender_id), UGB_BYTES((parts)->encryption_key),                      \
        UGB_BYTES((parts)->signature), UGB_BYTES((parts)->sender_cert), UGB_UNITS((parts)->provider_name),             \
        UGB_BYTES((parts)->extension), UGB_BYTES((parts)->body)
ugb_defaulted_answer ugb_defaulted_positional(UGB_REQUEST_PARAMETERS);
ugb_sent ugb_send_positional(UGB_REQUEST_PARAMETERS, uint8_t *out, size_t out_length);

/* The defaulted properties of a request: 01's steps in their order, but for the output's. */
static inline ugb_defaulted_answer ugb_defaulted(const ugb_request *request, const ugb_request_parts *parts)
{
    return ugb_defaulted_positional(*request, UGB_REQUEST_PARTS(parts));
}

/* The properties of a section that was read, the section of ugb_read's answer. Of a request's section they are those of
 * ugb_defaulted, but for what is not known. The title is the first units of the label; label, signature and
 * CorrelationID are had through their parts. Of a refused reading: all zero. */
ugb_properties ugb_properties_of(ugb_section section);

/* The section of a request, at the front of the output. It begins with a SecurityHeader where identity, key, signature
 * or certificate is not empty. */
static inline ugb_sent ugb_send(const ugb_request *request, const ugb_request_parts *parts, uint8_t *out,
                                size_t out_length)
{
    return ugb_send_positional(*request, UGB_REQUEST_PARTS(parts), out, out_length);
}

/* ---- Queue formats */

/* The type of a queue format. */
enum ugb_queue_type {
    UGB_QUEUE_UNKNOWN = 0x00,   /* no value */
    UGB_QUEUE_PUBLIC = 0x01,    /* a GUID, 16 bytes */
    UGB_QUEUE_PRIVATE = 0x02,   /* an OBJECTID, 20 bytes */
    UGB_QUEUE_DIRECT = 0x03,    /* a string */
    UGB_QUEUE_MACHINE = 0x04,   /* a GUID, 16 bytes */
    UGB_QUEUE_CONNECTOR = 0x05, /* a GUID, 16 bytes */
    UGB_QUEUE_DL = 0x06,        /* a GUID and a string */
    UGB_QUEUE_MULTICAST = 0x07, /* a MULTICAST_ID, 8 bytes */
    UGB_QUEUE_SUBQUEUE = 0x08   /* a string */
};

/* The suffix type, the low nibble of suffix_and_flags. */
enum ugb_queue_suffix {
    UGB_SUFFIX_NONE = 0x00,       /* with flags 0x00, any type but 4 */
    UGB_SUFFIX_JOURNAL = 0x01,    /* with flags 0x80, any type but 5, 6, 7 */
    UGB_SUFFIX_DEADLETTER = 0x02, /* with flags 0x80, any type but 1, 2, 5, 6, 7 */
    UGB_SUFFIX_DEADXACT = 0x03,   /* with flags 0x80, types 3 and 4 */
    UGB_SUFFIX_XACTONLY = 0x04,   /* with either flags, type 5 */
    UGB_SUFFIX_SUBQUEUE = 0x05    /* with flags 0x00, type 8 */
};

/* The flags, the high nibble of suffix_and_flags, in its place. */
enum ugb_queue_flags { UGB_FLAG_NOT_SYSTEM = 0x00, UGB_FLAG_SYSTEM = 0x80 };

typedef struct ugb_queue_format {
    uint8_t kind;             /* the type */
    uint8_t suffix_and_flags; /* the suffix type and the flags */
} ugb_queue_format;

typedef struct ugb_image_read {
    ugb_refusal refusal;     /* 0, 1 or 30 to 33 */
    ugb_queue_format format; /* type, suffix and flags; zero where refused */
    ugb_part fixed;          /* the GUID, OBJECTID or MULTICAST_ID; 0 and 0 where the type has none, or refused */
    ugb_part text;           /* the string, null included; 0 and 0 where the type has none, or refused */
} ugb_image_read; /* ugb_write_image of the format and the bytes at both parts gives the image again */

/* Reads the s_length bytes, which are exactly one image. */
ugb_image_read ugb_read_image(const uint8_t *s, size_t s_length);

/* The image of a queue format; fixed and text are empty where the type has none. Refused with 30 to 33, then 13. */
ugb_output ugb_write_image(ugb_queue_format format, const uint8_t *fixed, size_t fixed_length, const uint8_t *text,
                           size_t text_length, uint8_t *out, size_t out_length);

/* ---- A day's file */

/* The file is records in a row, each a head of 8 bytes and a section: 0x57 0x52, a byte 1 or 0 for a SecurityHeader
 * first or none, a zero byte, and the section's length in 4 bytes, at most 32,768. */
enum ugb_next {
    UGB_END = 0,  /* no byte is left: the file ended behind a whole record */
    UGB_STOP = 1, /* a wrong or cut head, or a cut section: nothing behind it can be read */
    UGB_FOUND = 2 /* a record */
};

typedef struct ugb_record {
    uint32_t next;          /* one of the three; all below is zero where it is not UGB_FOUND */
    size_t size;            /* the record's bytes, head and section: the next one begins behind them */
    bool security_first;    /* whether a SecurityHeader stands first in the section, as ugb_read asks */
    ugb_part section;       /* where the section lies in s; bytes behind its own length may follow it there */
    ugb_refusal refusal;    /* as ugb_read refuses the section, the place counted from the section's first byte */
    uint16_t message_class; /* MessageClass; this and all below is zero where the section is refused */
    uint32_t label_length;  /* LabelLength, in 16-bit units */
    size_t extension_size;  /* ExtensionSize, in bytes */
    size_t message_size;    /* MessageSize, in bytes */
    size_t section_length;  /* the section's own length in bytes */
} ugb_record;

/* The record at the first of s_length bytes, which are what is left of the file. To go through a file in memory:
 *
 *     ugb_record record;
 *     for (; (record = ugb_next_record(s, left)).next == UGB_FOUND; s += record.size, left -= record.size)
 *         ..
 *
 * Of a file in portions, have 8 + 32,768 bytes or all that is left before each call: else a record that is cut by the
 * portion counts as UGB_STOP. */
ugb_record ugb_next_record(const uint8_t *s, size_t s_length);

/* One call of ugb_read_day reads at most so many records, into however many slots. */
#define UGB_DAY_MOST 256

/* What ugb_next_record says of a record's section. In a slot that was filled number or section_length is not 0, so a
 * table that was all zero shows which slots were filled. */
typedef struct ugb_day_slot {
    ugb_refusal refusal;   /* as ugb_read refuses the section, the place counted from the section's first byte */
    size_t message_class;  /* MessageClass; this and all below is zero where the section is refused */
    size_t label_length;   /* LabelLength, in 16-bit units */
    size_t extension_size; /* ExtensionSize, in bytes */
    size_t message_size;   /* MessageSize, in bytes */
    size_t section_length; /* the section's own length in bytes, 56 or more where it is accepted */
} ugb_day_slot;

typedef struct ugb_day {
    ugb_refusal refusal; /* 0, 15 or 16 */
    size_t records;      /* how many records the file has: so many slots were filled; 0 where refused */
} ugb_day;

/* Reads a whole day's file into a table, its first record into the first slot.
 *
 *     ugb_day_slot table[UGB_DAY_MOST];
 *     ugb_day day = ugb_read_day(file, file_length, table, UGB_DAY_MOST);
 *     size_t filled = day.refusal.number == UGB_BAD_RECORD ? day.refusal.place : day.records;
 *     for (size_t number = 0; number < filled; number++)
 *         ..
 *
 * Whole records are counted up to the file's end or the first bad one, at which ugb_next_record says UGB_STOP. More of
 * them than slots, or than 256, are refused with 16, and no slot is filled. Else a bad record is refused with 15; the
 * place is its number, from 0, and the slots before it are filled. A section that is refused is no bad record but an
 * answer in its slot. Slots behind the last answer stay as they were.
 *
 * Of a file with more than 257 * 32,776 bytes that many are enough to tell. */
ugb_day ugb_read_day(const uint8_t *file, size_t file_length, ugb_day_slot *table, size_t slots);

#ifdef __cplusplus
}
#endif

#endif
