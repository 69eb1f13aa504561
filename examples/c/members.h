/* The members of each struct of an answer, but for its refusal, and of a state: X of each number, mark and array. A
 * test that a list is whole stands below it: what it leaves out are so many unnamed bytes between members. */
#include "ugbariteyo.h"

#define PART(X, at) X(at.start) X(at.length)

#define SECURITY_FIELDS(X, at)                                                                                         \
    X(at.flags) X(at.sender_id_size) X(at.encryption_key_size) X(at.signature_size) X(at.sender_cert_size)             \
        X(at.provider_info_size)

#define SECURITY_PARTS(X, at)                                                                                          \
    PART(X, at.sender_id) PART(X, at.encryption_key) PART(X, at.signature) PART(X, at.sender_cert)                     \
        PART(X, at.provider_info) X(at.length)

#define SECURITY_HEADER(X, at)                                                                                         \
    SECURITY_FIELDS(X, at.fields)                                                                                      \
    SECURITY_PARTS(X, at.parts) X(at.sid_revision) X(at.sid_sub_authority_count) X(at.provider_type)

#define PROPERTIES_FIELDS(X, at)                                                                                       \
    X(at.flags) X(at.label_length) X(at.message_class) X(at.body_type) X(at.message_size) X(at.allocation_body_size)   \
        X(at.privacy_level) X(at.hash_algorithm) X(at.encryption_algorithm) X(at.extension_size)

#define PROPERTIES_PARTS(X, at) PART(X, at.label) PART(X, at.extension) PART(X, at.body) X(at.section_length)

#define SUMMARY(X, at)                                                                                                 \
    X(at.security_first)                                                                                               \
    SECURITY_HEADER(X, at.security)                                                                                    \
    PROPERTIES_FIELDS(X, at.properties)                                                                                \
    PROPERTIES_PARTS(X, at.parts) X(at.authentication_fails) X(at.decryption_fails) X(at.retired)

#define SECTION(X, at) SUMMARY(X, at.summary) PART(X, at.correlation_id) X(at.application_tag)

#define NUMBER(X, at) X(at.given) X(at.number)

#define HANDLING(X, at)                                                                                                \
    X(at.known) X(at.priority) X(at.trace) X(at.delivery) X(at.auditing) X(at.transaction) X(at.direct_queue)          \
        NUMBER(X, at.split_number) X(at.provider_name_length) X(at.time_to_queue) X(at.time_to_live)

#define SENDER(X, at) X(at.known) X(at.kind) X(at.default_provider) X(at.encryption)

#define PRIVACY(X, at) X(at.packet) X(at.level)

#define PROPERTIES(X, at)                                                                                              \
    HANDLING(X, at.handling)                                                                                           \
    SENDER(X, at.sender)                                                                                               \
    NUMBER(X, at.provider_type) X(at.message_class) X(at.acknowledge) X(at.application_tag)                            \
        PRIVACY(X, at.privacy_level) X(at.hash_algorithm) X(at.encryption_algorithm) X(at.body_type)                   \
            X(at.message_size) X(at.allocation_body_size) X(at.title) X(at.signature)

#define IMAGE(X, at) X(at.format.kind) X(at.format.suffix_and_flags) PART(X, at.fixed) PART(X, at.text)

#define SENT(X, at) X(at.length) X(at.security_first)

#define RECORD_VALUES(X, at)                                                                                           \
    X(at.message_class) X(at.label_length) X(at.extension_size) X(at.message_size) X(at.section_length)

#define RECORD(X, at) X(at.size) X(at.security_first) PART(X, at.section) RECORD_VALUES(X, at)

#define DAY(X, at) X(at.records)

#define VALUE(X, at) X(at.body_type) X(at.bits)

#define VALUE_READ(X, at) VALUE(X, at.value)

#define PORTIONS(X, at) X(at.counters) X(at.head) X(at.provider_type) X(at.properties)

#define SIZE(member) +sizeof(member)
#define WHOLE(list, type, unnamed)                                                                                     \
    static inline void whole_##type(type at)                                                                           \
    {                                                                                                                  \
        _Static_assert(0 list(SIZE, at) + unnamed == sizeof at, "every member of " #type " is listed");                \
        (void)at;                                                                                                      \
    }

WHOLE(SECTION, ugb_section, 31)
WHOLE(PROPERTIES, ugb_properties, 23)
WHOLE(IMAGE, ugb_image_read, sizeof(ugb_refusal) + 6)
WHOLE(SENT, ugb_sent, sizeof(ugb_refusal) + 7)
WHOLE(RECORD, ugb_record, sizeof(uint32_t) + sizeof(ugb_refusal) + 13)
WHOLE(RECORD_VALUES, ugb_day_slot, sizeof(ugb_refusal))
WHOLE(DAY, ugb_day, sizeof(ugb_refusal))
WHOLE(VALUE, ugb_body_value, 4)
WHOLE(VALUE_READ, ugb_value_read, sizeof(ugb_refusal) + 4)
WHOLE(PORTIONS, ugb_portions, 6)
_Static_assert(sizeof(ugb_portions) == UGB_PORTIONS_SIZE, "the size that the header says");
