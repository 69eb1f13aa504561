/* A summary filled from the headers of a section that was judged. */
#ifndef SUMMARY_H
#define SUMMARY_H

#include "section.h"

/* Whole blocks of 16 bytes, the last two of which may overlap: the answers are too short for a call of memset. */
static inline void zero(void *to, size_t bytes)
{
    const __m128i none = _mm_setzero_si128();
    uint8_t *end = (uint8_t *)to + bytes;
#pragma GCC unroll 32
    for (size_t i = 0; i < bytes / 16; i++)
        _mm_storeu_si128((__m128i *)to + i, none);
    _mm_storeu_si128((__m128i *)(end - 16), none);
}

static inline ugb_part part(const security *x, int i)
{
    return (ugb_part){x->at[i], x->size[i]};
}

/* The fixed bytes and the identity's first two are at `s`, the provider's type is at `provider`. */
static inline void fill_security(ugb_security_header *to, const security *x, const uint8_t *s, const uint8_t *provider)
{
    bool sid = sender_kind(x) == 1;
    to->fields = (ugb_security_fields){x->flags,           x->size[IDENTITY],    x->size[KEY],
                                       x->size[SIGNATURE], x->size[CERTIFICATE], x->size[PROVIDER]};
    to->parts = (ugb_security_parts){part(x, IDENTITY),    part(x, KEY),      part(x, SIGNATURE),
                                     part(x, CERTIFICATE), part(x, PROVIDER), x->at[SECURITY_PARTS]};
    to->sid_revision = sid ? s[SECURITY_FIXED] : 0;
    to->sid_sub_authority_count = sid ? s[SECURITY_FIXED + 1] : 0;
    to->provider_type = x->size[PROVIDER] != 0 ? number32(provider) : 0;
}

static inline void fill_properties(ugb_summary *to, const properties *x, const uint8_t *header)
{
    size_t label = x->at + PROPERTIES_FIXED, extension = label + x->label, body = extension + x->extension;
    to->properties.flags = header[0] & 0x0F;
    to->properties.label_length = header[1];
    to->properties.message_class = (uint16_t)x->class;
    to->properties.body_type = number32(header + 24);
    to->properties.message_size = x->body;
    to->properties.allocation_body_size = x->allocation;
    to->properties.privacy_level = number32(header + 40);
    to->properties.hash_algorithm = number32(header + 44);
    to->properties.encryption_algorithm = number32(header + 48);
    to->properties.extension_size = x->extension;
    to->parts = (ugb_properties_parts){{label, x->label}, {extension, x->extension}, {body, x->body}, x->length};
}

static inline bool authentication_fails(bool signature, uint32_t privacy, uint32_t hash)
{
    bool privacy_listed = privacy < 6 && (0x2B >> privacy & 1) != 0;
    bool hash_listed = hash >> 4 == 0x800 && (0x501E >> (hash & 15) & 1) != 0;
    return !privacy_listed || (signature && !hash_listed);
}

/* 003's table by the level: AES at 5, RC2 and RC4 at 1 and 3. */
static inline bool decryption_fails(bool encrypted, uint32_t privacy, uint32_t algorithm)
{
    bool aes = algorithm - 0x660E <= 2, rc = algorithm == 0x6602 || algorithm == 0x6801;
    return encrypted && !(privacy == 5 ? aes : (privacy & ~2u) == 1 && rc);
}

/* C-21: 40-bit privacy; MD2, MD4 and MD5 beside a signature. */
static inline bool retired(bool signature, uint32_t privacy, uint32_t hash)
{
    return privacy == 1 || (signature && hash - 0x8001 <= 2);
}

/* Without security the first header has no flag and no signature. */
static inline void fill_verdicts(ugb_summary *to, const security *x, const uint8_t *header)
{
    bool encrypted = (x->flags & FLAG_EB) != 0, signature = x->size[SIGNATURE] != 0;
    uint32_t privacy = number32(header + 40), hash = number32(header + 44);
    to->authentication_fails = authentication_fails(signature, privacy, hash);
    to->decryption_fails = decryption_fails(encrypted, privacy, number32(header + 48));
    to->retired = retired(signature, privacy, hash);
}

#endif
