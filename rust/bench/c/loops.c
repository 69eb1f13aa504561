#include "lent.h"
#include "portions.h"
#include "samples.h"
#include "tuned.h"

/* Makes the compiler put the answer into memory, and forget what it knows of what is lent. */
static inline void taken(const void *answer)
{
    __asm__ volatile("" : : "r"(answer) : "memory");
}

/* Looks at the refusal, as every caller does. */
static inline void looked_at(const ugb_refusal *refusal)
{
    if (refusal->number != UGB_ACCEPTED)
        taken(refusal);
}

/* The answer is initialized by the call: assigned, it would be copied. */
#define LOOP(name, lent, answered, look)                                                                               \
    LOOP_OF(name, lent)                                                                                                \
    {                                                                                                                  \
        (void)l, (void)out, (void)out_length;                                                                          \
        for (; times != 0; times--) {                                                                                  \
            answered;                                                                                                  \
            taken(&answer);                                                                                            \
            look;                                                                                                      \
        }                                                                                                              \
    }

#define ANSWERED(name, lent, type, call) LOOP(name, lent, type answer = call, looked_at(&answer.refusal))
#define SECTION l->s.bytes, l->s.length
#define COPIED UGB_BYTES(l->section.s), l->section.security_first, UGB_BYTES(l->copy)
#define OUT out, out_length
#define DAY UGB_BYTES(l->file), l->table, l->slots

ANSWERED(read, section, ugb_reading, ugb_read(SECTION, l->security_first))
ANSWERED(summarize, section, ugb_summarized, ugb_summarize(SECTION, l->security_first))
ANSWERED(support_copy, section, ugb_output, ugb_support_copy(SECTION, l->security_first, OUT))
ANSWERED(write_section, given, ugb_output, ugb_write_section(l->values, &l->parts, OUT))
ANSWERED(send, void, ugb_sent, send_sample(OUT))
ANSWERED(defaulted, void, ugb_defaulted_answer, defaulted_sample())
ANSWERED(read_image, ugb_bytes, ugb_image_read, ugb_read_image(l->bytes, l->length))
ANSWERED(write_image, given_image, ugb_output, write_given_image(ugb_write_image, l, OUT))
ANSWERED(read_day, day, ugb_day, ugb_read_day(DAY))
ANSWERED(read_value, section, ugb_value_read, ugb_read_value(SECTION, l->security_first))

ANSWERED(tuned_support_copy, section, ugb_output, tuned_support_copy(SECTION, l->security_first, OUT))
ANSWERED(tuned_write_section, given, ugb_output, write_given(tuned_write_section, l, OUT))
LOOP(tuned_read, section, ugb_reading answer; tuned_read(&answer, SECTION, l->security_first),
     looked_at(&answer.refusal))
ANSWERED(tuned_write_image, given_image, ugb_output, write_given_image(tuned_write_image, l, OUT))
LOOP(tuned_read_image, ugb_bytes, ugb_image_read answer; tuned_read_image(&answer, l->bytes, l->length),
     looked_at(&answer.refusal))
ANSWERED(tuned_read_day, day, ugb_day, tuned_read_day(DAY))
ANSWERED(tuned_read_value, section, ugb_value_read, tuned_read_value(SECTION, l->security_first))

LOOP(same_summary, section, bool answer = ugb_same_summary(SECTION, OUT, l->security_first), )
LOOP(is_support_copy, copied, bool answer = ugb_is_support_copy(COPIED), )
LOOP(tuned_is_support_copy, copied, bool answer = tuned_is_support_copy(COPIED), )

/* The bytes that are shown. */
static inline ugb_bytes label_shown(const section *l)
{
    static const uint8_t stand_in[8];
    ugb_label label = ugb_label_shown(SECTION, l->security_first);
    return label.stand_in ? (ugb_bytes){stand_in, sizeof stand_in} : ugb_bytes_of(label.part, l->s.bytes);
}

LOOP(label_shown, section, ugb_bytes answer = label_shown(l), )

/* A section from its start to its finish. */
static inline ugb_summarized in_portions(const portioned *l)
{
    ugb_portions state = ugb_start(l->security_first);
    for (size_t i = 0; i < l->count; i++) {
        ugb_refusal refusal = ugb_portion(&state, UGB_BYTES(l->portions[i]));
        looked_at(&refusal);
    }
    return ugb_finish(&state);
}

static inline void tuned_in_portions(ugb_summarized *answer, const portioned *l)
{
    tuned_portions state;
    tuned_start(&state, l->security_first);
    for (size_t i = 0; i < l->count; i++) {
        ugb_refusal refusal = tuned_portion(&state, UGB_BYTES(l->portions[i]));
        looked_at(&refusal);
    }
    tuned_finish(answer, &state);
}

ANSWERED(portions, portioned, ugb_summarized, in_portions(l))
LOOP(tuned_portions, portioned, ugb_summarized answer; tuned_in_portions(&answer, l), looked_at(&answer.refusal))
