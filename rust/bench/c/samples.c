#include "samples.h"

enum { TITLE_UNITS = 40, LABEL_UNITS = 250, BODY = 100, LONG_BODY = 4096, SIGNATURE = 128 };

static uint8_t pattern[LONG_BODY];

__attribute__((constructor)) static void fill_pattern(void)
{
    for (size_t i = 0; i < sizeof pattern; i++)
        pattern[i] = (uint8_t)(i % 251);
}

/* ---- Sections */

static const uint8_t identity[28] = {1, 5, 0, 0, 0, 0, 0, 5,  21, 0,  0,    0, 1, 2,
                                     3, 4, 5, 6, 7, 8, 9, 10, 11, 12, 0xF4, 1, 0, 0};
static const uint16_t provider_info[] = u"\1\0Microsoft Base Cryptographic Provider v1.0"; /* type 1, in 4 bytes */
static const uint16_t label[LABEL_UNITS] = {[0 ... LABEL_UNITS - 2] = 'x'};

/* What a body is: text and encrypted, or a plain number. */
enum { TEXT, NUMBER };

#define VALUES(security, body, body_length)                                                                            \
    (&(const ugb_section_values){                                                                                      \
        .security_first = security,                                                                                    \
        .security_flags = body == NUMBER ? 0x0081 : 0x00A1,                                                            \
        .flags = 5,                                                                                                    \
        .body_type = body == NUMBER ? UGB_VT_R8 : 8,                                                                   \
        .application_tag = 7,                                                                                          \
        .allocation_body_size = body_length,                                                                           \
        .privacy_level = 1,                                                                                            \
        .hash_algorithm = 0x8003,                                                                                      \
        .encryption_algorithm = 0x6801,                                                                                \
        .correlation_id = {[0 ... 19] = 9},                                                                            \
    })

#define PLAIN(what, length)                                                                                            \
    {                                                                                                                  \
        .values = VALUES(false, what, length), .parts.body = {pattern, length},                                        \
    }

#define SECURED(what, length)                                                                                          \
    {                                                                                                                  \
        .values = VALUES(true, what, length),                                                                          \
        .parts = {                                                                                                     \
            .sender_id = {identity, sizeof identity},                                                                  \
            .encryption_key = {pattern, 128},                                                                          \
            .signature = {pattern, SIGNATURE},                                                                         \
            .sender_cert = {pattern, 1000},                                                                            \
            .provider_info = {(const uint8_t *)provider_info, sizeof provider_info},                                   \
            .label = {(const uint8_t *)label, sizeof label},                                                           \
            .extension = {pattern, 20},                                                                                \
            .body = {pattern, length},                                                                                 \
        },                                                                                                             \
    }

const given plain_sample = PLAIN(TEXT, BODY);
const given long_sample = PLAIN(TEXT, LONG_BODY);
const given secured_sample = SECURED(TEXT, BODY);
const given number_sample = PLAIN(NUMBER, 8);
const given secured_number_sample = SECURED(NUMBER, 8);

/* ---- The request */

static const uint16_t title[TITLE_UNITS] = {[0 ... TITLE_UNITS - 1] = 'a'};
static const ugb_request request = {
    .acknowledge = {true, 5},
    .hash_algorithm = {true, 0x8004},
    .sender_kind = {true, 1},
    .provider_type = {true, 1},
    .time_to_queue = 3600,
    .time_to_live = 86400,
    .correlation_id = {[0 ... 19] = 9},
    .body_given = true,
    .allocation_body_size = BODY,
};

/* No key, certificate and extension; the provider's name without its null. */
static const ugb_request_parts parts = {
    .title = {title, TITLE_UNITS},
    .sender_id = {identity, sizeof identity},
    .signature = {pattern, SIGNATURE},
    .provider_name = {provider_info + 2, sizeof provider_info / 2 - 3},
    .body = {pattern, BODY},
};

ugb_sent send_sample(uint8_t *out, size_t out_length)
{
    return ugb_send(&request, &parts, out, out_length);
}

ugb_defaulted_answer defaulted_sample(void)
{
    return ugb_defaulted(&request, &parts);
}

/* ---- The image */

static const uint16_t image[] = u"\3\0DIRECT=OS:scanner-07\\private$\\findings";
const ugb_bytes image_sample = {(const uint8_t *)image, sizeof image};
