/* What src/c.rs calls. */
#ifndef LENT_H
#define LENT_H

#include "given.h"

typedef struct section {
    ugb_bytes s;
    bool security_first;
} section;

typedef struct copied {
    section section;
    ugb_bytes copy;
} copied;

typedef struct day {
    ugb_bytes file;
    ugb_day_slot *table;
    size_t slots;
} day;

/* The portions in which a section comes. */
typedef struct portioned {
    const ugb_bytes *portions;
    size_t count;
    bool security_first;
} portioned;

/* A call with what is lent to it, repeated. */
#define LOOP_OF(name, lent) void loop_##name(const lent *l, uint8_t *out, size_t out_length, uint64_t times)

/* The library's calls. The other summary is that of the output's bytes; the request is the one of samples.h. */
LOOP_OF(read, section);
LOOP_OF(summarize, section);
LOOP_OF(same_summary, section);
LOOP_OF(label_shown, section);
LOOP_OF(support_copy, section);
LOOP_OF(is_support_copy, copied);
LOOP_OF(write_section, given);
LOOP_OF(send, void);
LOOP_OF(defaulted, void);
LOOP_OF(read_image, ugb_bytes);
LOOP_OF(write_image, given_image);
LOOP_OF(read_day, day);
LOOP_OF(portions, portioned);
LOOP_OF(read_value, section);

/* The tuned calls. */
LOOP_OF(tuned_read, section);
LOOP_OF(tuned_support_copy, section);
LOOP_OF(tuned_is_support_copy, copied);
LOOP_OF(tuned_write_section, given);
LOOP_OF(tuned_read_image, ugb_bytes);
LOOP_OF(tuned_write_image, given_image);
LOOP_OF(tuned_read_day, day);
LOOP_OF(tuned_portions, portioned);
LOOP_OF(tuned_read_value, section);

/* Whether a tuned call answers as the library's, and leaves its output as the library's leaves its. */
bool reads_agree(const section *l);
bool values_agree(const section *l);
bool copies_agree(const section *l, uint8_t *out, uint8_t *tuned_out, size_t length);
bool checks_agree(const copied *l);
bool writings_agree(const given *l, uint8_t *out, uint8_t *tuned_out, size_t length);
bool image_reads_agree(const ugb_bytes *l);
bool image_writings_agree(const given_image *l, uint8_t *out, uint8_t *tuned_out, size_t length);
bool days_agree(const day *l, ugb_day_slot *tuned_table);

/* Whether both answer to the portions as the library to the whole, hold its label, and refuse what comes then. */
bool portions_agree(const portioned *l, const section *whole);

#endif
