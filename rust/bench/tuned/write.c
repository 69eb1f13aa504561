#include "place.h"
#include "put.h"
#include "tuned.h"

typedef const uint8_t *parts[SECURITY_PARTS];

static inline void put_security(uint8_t *out, const security *x, const parts parts)
{
    put32(out, x->flags | (uint32_t)x->size[IDENTITY] << 16);
    put32(out + 4, (uint32_t)x->size[KEY] | (uint32_t)x->size[SIGNATURE] << 16);
    put32(out + 8, (uint32_t)x->size[CERTIFICATE]);
    put32(out + 12, (uint32_t)x->size[PROVIDER]);
    for (int i = 0; i < SECURITY_PARTS; i++) {
        if (x->size[i] % 4 != 0)
            put32(out + x->at[i + 1] - 4, 0);
        put(out + x->at[i], parts[i], x->size[i]);
    }
}

static inline uint8_t *put_properties(uint8_t *out, const properties *x, const ugb_section_values *values)
{
    put32(out, (values->flags & 0x0F) | (uint32_t)x->label / 2 << 8 | x->class << 16);
    memcpy(out + 4, values->correlation_id, 20);
    put32(out + 24, values->body_type);
    put32(out + 28, values->application_tag);
    put32(out + 32, (uint32_t)x->body);
    put32(out + 36, (uint32_t)x->allocation);
    put32(out + 40, values->privacy_level);
    put32(out + 44, values->hash_algorithm);
    put32(out + 48, values->encryption_algorithm);
    put32(out + 52, (uint32_t)x->extension);
    return out + PROPERTIES_FIXED;
}

/* 28, then S2 to S8, S10 and S11. */
static inline uint32_t judge_security(security *x, const size_t sizes[SECURITY_PARTS], const parts parts)
{
    uint32_t number;
    memcpy(x->size, sizes, sizeof x->size);
    if (x->size[KEY] > PART_MOST || x->size[SIGNATURE] > PART_MOST || x->size[CERTIFICATE] > PART_MOST)
        return UGB_PART_TOO_LARGE;
    number = security_steps(x);
    return number != UGB_ACCEPTED ? number : security_content(x, parts[IDENTITY], parts[PROVIDER]);
}

/* P2 to P5 and P7. */
static inline uint32_t judge_properties(properties *x, const uint8_t *label)
{
    uint32_t number = properties_steps(x);
    return number != UGB_ACCEPTED ? number : label_content(x, label);
}

static inline ugb_output refused(uint32_t number, size_t place)
{
    return (ugb_output){{number, place}, 0};
}

ugb_output tuned_write_section(ugb_section_values values, const uint8_t *sender_id,
                               size_t sender_id_length, const uint8_t *encryption_key, size_t encryption_key_length,
                               const uint8_t *signature, size_t signature_length, const uint8_t *sender_cert,
                               size_t sender_cert_length, const uint8_t *provider_info, size_t provider_info_length,
                               const uint8_t *label, size_t label_length, const uint8_t *extension,
                               size_t extension_length, const uint8_t *body, size_t body_length, uint8_t *out,
                               size_t out_length)
{
    const parts parts = {sender_id, encryption_key, signature, sender_cert, provider_info};
    const size_t sizes[] = {sender_id_length, encryption_key_length, signature_length, sender_cert_length,
                            provider_info_length};
    security first;
    properties second = {.label = label_length, .extension = extension_length, .body = body_length};
    uint32_t number;
    first.flags = values.security_flags & FLAGS_JUDGED;
    second.allocation = values.allocation_body_size;
    second.class = values.message_class;
    if (values.security_first) {
        number = judge_security(&first, sizes, parts);
        if (number != UGB_ACCEPTED)
            return refused(number, security_place(number, &first, NULL, parts[PROVIDER]));
        second.at = first.at[SECURITY_PARTS];
    }
    number = judge_properties(&second, label);
    if (number != UGB_ACCEPTED)
        return refused(number, properties_place(number, &second, label));
    if (second.length > out_length)
        return refused(UGB_OUTPUT_SHORT, 0);
    put32(out + second.length - 4, 0); /* the padding at the end */
    if (values.security_first)
        put_security(out, &first, parts);
    out = put_properties(out + second.at, &second, &values);
    put(put(put(out, label, label_length), extension, extension_length), body, body_length);
    return (ugb_output){{UGB_ACCEPTED, 0}, second.length};
}
