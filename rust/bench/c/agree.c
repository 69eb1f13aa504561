#include <string.h>

#include "lent.h"
#include "portions.h"
#include "tuned.h"

/* Answers are compared member by member: the bytes between members hold anything. */
#define SAME(member) (a->member == b->member)
#define SAME_BYTES(member) (memcmp(&a->member, &b->member, sizeof a->member) == 0)

static bool same_refusal(const ugb_refusal *a, const ugb_refusal *b)
{
    return SAME(number) && SAME(place);
}

static bool same_security(const ugb_security_header *a, const ugb_security_header *b)
{
    return SAME(fields.flags) && SAME(fields.sender_id_size) && SAME(fields.encryption_key_size) &&
           SAME(fields.signature_size) && SAME(fields.sender_cert_size) && SAME(fields.provider_info_size) &&
           SAME_BYTES(parts) && SAME(sid_revision) && SAME(sid_sub_authority_count) && SAME(provider_type);
}

static bool same_properties(const ugb_properties_fields *a, const ugb_properties_fields *b)
{
    return SAME(flags) && SAME(label_length) && SAME(message_class) && SAME(body_type) && SAME(message_size) &&
           SAME(allocation_body_size) && SAME(privacy_level) && SAME(hash_algorithm) && SAME(encryption_algorithm) &&
           SAME(extension_size);
}

static bool same_summary(const ugb_summary *a, const ugb_summary *b)
{
    return SAME(security_first) && same_security(&a->security, &b->security) &&
           same_properties(&a->properties, &b->properties) && SAME_BYTES(parts) && SAME(authentication_fails) &&
           SAME(decryption_fails) && SAME(retired);
}

static bool same_summarized(const ugb_summarized *a, const ugb_summarized *b)
{
    return same_refusal(&a->refusal, &b->refusal) && same_summary(&a->summary, &b->summary);
}

static bool same_reading(const ugb_reading *a, const ugb_reading *b)
{
    return same_refusal(&a->refusal, &b->refusal) && same_summary(&a->section.summary, &b->section.summary) &&
           SAME_BYTES(section.correlation_id) && SAME(section.application_tag);
}

static bool same_image(const ugb_image_read *a, const ugb_image_read *b)
{
    return same_refusal(&a->refusal, &b->refusal) && SAME_BYTES(format) && SAME_BYTES(fixed) && SAME_BYTES(text);
}

static bool same_day(const ugb_day *a, const ugb_day *b)
{
    return same_refusal(&a->refusal, &b->refusal) && SAME(records);
}

static bool same_slot(const ugb_day_slot *a, const ugb_day_slot *b)
{
    return same_refusal(&a->refusal, &b->refusal) && SAME(message_class) && SAME(label_length) &&
           SAME(extension_size) && SAME(message_size) && SAME(section_length);
}

static bool same_value(const ugb_value_read *a, const ugb_value_read *b)
{
    return same_refusal(&a->refusal, &b->refusal) && SAME(value.body_type) && SAME(value.bits);
}

static bool same_output(const ugb_output *a, const ugb_output *b)
{
    return same_refusal(&a->refusal, &b->refusal) && SAME(length);
}

bool reads_agree(const section *l)
{
    ugb_reading library = ugb_read(l->s.bytes, l->s.length, l->security_first), tuned;
    tuned_read(&tuned, l->s.bytes, l->s.length, l->security_first);
    return same_reading(&library, &tuned);
}

bool values_agree(const section *l)
{
    ugb_value_read library = ugb_read_value(UGB_BYTES(l->s), l->security_first);
    ugb_value_read tuned = tuned_read_value(UGB_BYTES(l->s), l->security_first);
    return same_value(&library, &tuned);
}

/* Before the calls both outputs are filled alike, so that a byte that only one of them writes shows. */
static void fill(uint8_t *out, uint8_t *tuned_out, size_t length)
{
    memset(out, 0xA5, length);
    memset(tuned_out, 0xA5, length);
}

bool copies_agree(const section *l, uint8_t *out, uint8_t *tuned_out, size_t length)
{
    fill(out, tuned_out, length);
    ugb_output library = ugb_support_copy(l->s.bytes, l->s.length, l->security_first, out, length);
    ugb_output tuned = tuned_support_copy(l->s.bytes, l->s.length, l->security_first, tuned_out, length);
    return same_output(&library, &tuned) && memcmp(out, tuned_out, length) == 0;
}

bool checks_agree(const copied *l)
{
    const section *x = &l->section;
    return ugb_is_support_copy(UGB_BYTES(x->s), x->security_first, UGB_BYTES(l->copy)) ==
           tuned_is_support_copy(UGB_BYTES(x->s), x->security_first, UGB_BYTES(l->copy));
}

bool writings_agree(const given *l, uint8_t *out, uint8_t *tuned_out, size_t length)
{
    fill(out, tuned_out, length);
    ugb_output library = ugb_write_section(l->values, &l->parts, out, length);
    ugb_output tuned = write_given(tuned_write_section, l, tuned_out, length);
    return same_output(&library, &tuned) && memcmp(out, tuned_out, length) == 0;
}

bool image_reads_agree(const ugb_bytes *l)
{
    ugb_image_read library = ugb_read_image(l->bytes, l->length), tuned;
    tuned_read_image(&tuned, l->bytes, l->length);
    return same_image(&library, &tuned);
}

bool image_writings_agree(const given_image *l, uint8_t *out, uint8_t *tuned_out, size_t length)
{
    fill(out, tuned_out, length);
    ugb_output library = write_given_image(ugb_write_image, l, out, length);
    ugb_output tuned = write_given_image(tuned_write_image, l, tuned_out, length);
    return same_output(&library, &tuned) && memcmp(out, tuned_out, length) == 0;
}

bool days_agree(const day *l, ugb_day_slot *tuned_table)
{
    fill((uint8_t *)l->table, (uint8_t *)tuned_table, l->slots * sizeof *l->table);
    ugb_day library = ugb_read_day(UGB_BYTES(l->file), l->table, l->slots);
    ugb_day tuned = tuned_read_day(UGB_BYTES(l->file), tuned_table, l->slots);
    bool same = same_day(&library, &tuned);
    for (size_t slot = 0; slot < l->slots; slot++)
        same = same && same_slot(&l->table[slot], &tuned_table[slot]);
    return same;
}

static bool portion_gives(ugb_refusal expected, ugb_portions *state, tuned_portions *tuned_state, ugb_bytes portion)
{
    ugb_refusal library = ugb_portion(state, UGB_BYTES(portion));
    ugb_refusal tuned = tuned_portion(tuned_state, UGB_BYTES(portion));
    return same_refusal(&library, &expected) && same_refusal(&tuned, &expected);
}

static bool finish_gives(const ugb_summarized *expected, ugb_portions *state, tuned_portions *tuned_state)
{
    ugb_summarized library = ugb_finish(state), tuned;
    tuned_finish(&tuned, tuned_state);
    return same_summarized(&library, expected) && same_summarized(&tuned, expected);
}

static bool label_is_held(const ugb_summary *whole, const uint8_t *s, const ugb_portions *state,
                          const tuned_portions *tuned_state)
{
    ugb_bytes label = ugb_bytes_of(whole->parts.label, s), held = ugb_label_held(state, whole);
    const uint8_t *tuned = tuned_state->properties + PROPERTIES_FIXED;
    return held.length == label.length && (label.length == 0 || (memcmp(held.bytes, label.bytes, label.length) == 0 &&
                                                                 memcmp(tuned, label.bytes, label.length) == 0));
}

bool portions_agree(const portioned *l, const section *whole)
{
    const ugb_summarized after = {.refusal.number = UGB_AFTER_THE_FINISH};
    ugb_summarized in_one_go = ugb_summarize(UGB_BYTES(whole->s), whole->security_first);
    ugb_portions state = ugb_start(l->security_first);
    tuned_portions tuned;
    tuned_start(&tuned, l->security_first);
    for (size_t i = 0; i < l->count; i++)
        if (!portion_gives((ugb_refusal){UGB_ACCEPTED, 0}, &state, &tuned, l->portions[i]))
            return false;
    return finish_gives(&in_one_go, &state, &tuned) &&
           label_is_held(&in_one_go.summary, whole->s.bytes, &state, &tuned) &&
           portion_gives(after.refusal, &state, &tuned, whole->s) && finish_gives(&after, &state, &tuned);
}
