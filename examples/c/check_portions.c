/* The same for a section that is read in portions: however it is cut, every member of the answer and every byte of the
 * label is that of one-go reading, and after the finish no member of the state changes. */
#include "check.h"

/* A state, and its answer at the finish. */
typedef struct section {
    ugb_portions state;
    ugb_summarized answer;
} section;

/* ---- what is fed, and what is answered */

static ugb_portions feed(ugb_portions state, const uint8_t *s, size_t length)
{
    same_refusal(ugb_portion(&state, s, length), UGB_ACCEPTED, 0);
    return state;
}

/* In portions of up to so many bytes, at random; of none too. */
static ugb_portions feed_cut(ugb_portions state, const uint8_t *s, size_t length, size_t most)
{
    for (size_t next; length > 0; s += next, length -= next) {
        next = (size_t)rand() % (most + 1);
        next = next < length ? next : length;
        state = feed(state, s, next);
    }
    return state;
}

static void same_state(section found, section wanted)
{
#define SAME_BYTES(member) SAME(memcmp(&found.member, &wanted.member, sizeof found.member), 0);
    PORTIONS(SAME_BYTES, state)
}

static void same_answer(section found, section wanted)
{
#define SAME_MEMBER(member) SAME(found.member, wanted.member);
    same_refusal(found.answer.refusal, wanted.answer.refusal.number, wanted.answer.refusal.place);
    SUMMARY(SAME_MEMBER, answer.summary)
}

/* A second finish and any portion are refused, and change nothing. */
static void check_finished(section finished)
{
    section again = finished;
    again.answer = ugb_finish(&again.state);
    same_refusal(again.answer.refusal, UGB_AFTER_THE_FINISH, 0);
    SUMMARY(ZERO, again.answer.summary)
    same_refusal(ugb_portion(&again.state, NULL, 0), UGB_AFTER_THE_FINISH, 0);
    same_refusal(ugb_portion(&again.state, input, LENGTH), UGB_AFTER_THE_FINISH, 0);
    same_state(again, finished);
}

/* Finished, it is answered as one-go reading answers for so many bytes. */
static void finished_as(ugb_portions state, const uint8_t *s, size_t length, bool security_first)
{
    section found = {.state = state}, wanted = {.answer = ugb_summarize(s, length, security_first)};
    found.answer = ugb_finish(&found.state);
    same_answer(found, wanted);
    ugb_bytes held = ugb_label_held(&found.state, &found.answer.summary);
    ugb_bytes label = ugb_bytes_of(wanted.answer.summary.parts.label, s);
    SAME(held.length, label.length);
    SAME(held.bytes == NULL, label.length == 0);
    SAME(label.length != 0 && memcmp(held.bytes, label.bytes, label.length) != 0, false);
    check_finished(found);
}

/* The same, whole and in portions of several sizes. Gives the refusal of one-go reading. */
static ugb_refusal answered(const uint8_t *s, size_t length, bool security_first)
{
    static const size_t most[] = {1, 2, 7, 100};
    const ugb_portions start = ugb_start(security_first);
    finished_as(feed(start, s, length), s, length, security_first);
    for (size_t i = 0; i < 4; i++)
        finished_as(feed_cut(start, s, length, most[i]), s, length, security_first);
    return ugb_summarize(s, length, security_first).refusal;
}

/* ---- the checks */

/* Every cut of a section with every part, and of what is behind its SecurityHeader; bytes behind it. */
static void check_cuts(void)
{
    put_whole();
    for (size_t end = 0; end <= LENGTH + 8; end++) {
        uint32_t number = end < LENGTH ? UGB_INPUT_SHORT : UGB_ACCEPTED;
        same_refusal(answered(input, end, true), number, end < P || end >= LENGTH ? 0 : P);
        finished_as(feed(feed(ugb_start(true), input, end), input + end, LENGTH + 8 - end), input, LENGTH + 8, true);
    }
    for (size_t end = 0; end <= LENGTH - P + 8; end++)
        same_refusal(answered(input + P, end, false), end < LENGTH - P ? UGB_INPUT_SHORT : UGB_ACCEPTED, 0);
}

/* Every bit turned over: each number of 1 to 12 is given but 9, which takes two. */
static void check_bits(void)
{
    unsigned given = 0;
    for (size_t bit = 0; bit < 8 * LENGTH; bit++) {
        put_whole();
        input[bit / 8] ^= (uint8_t)(1 << bit % 8);
        given |= 1U << answered(input, LENGTH, true).number;
    }
    put_whole();
    put(P + 1, 1, 251);
    given |= 1U << answered(input, LENGTH, true).number;
    SAME(given, (1U << (UGB_LABEL + 1)) - 1);
}

/* What passed counts when its header came whole, and then 6 comes before 7. */
static void check_order(void)
{
    put_whole();
    put(46, 2, 0); /* the name's second unit */
    for (size_t end = 0; end < P; end++)
        same_refusal(answered(input, end, true), UGB_INPUT_SHORT, 0);
    same_refusal(answered(input, P, true), UGB_PROVIDER, 46);
    same_refusal(answered(input, LENGTH, true), UGB_PROVIDER, 46);
    put(17, 1, 1); /* the identity's second byte */
    same_refusal(answered(input, P - 1, true), UGB_INPUT_SHORT, 0);
    same_refusal(answered(input, LENGTH, true), UGB_IDENTITY, 2);
    put_whole();
    put(P + 56, 2, 0); /* the label's first unit */
    same_refusal(answered(input, LENGTH - 1, true), UGB_INPUT_SHORT, P);
    same_refusal(answered(input, LENGTH, true), UGB_LABEL, P + 56);
}

/* Names of three units, each 0, 1 or 0x100, so that zero bytes stand side by side in one unit and in two. */
static void check_names(void)
{
    static const uint16_t units[3] = {0, 1, 0x100};
    for (size_t name = 0; name < 27; name++) {
        const uint16_t one = units[name % 3], two = units[name / 3 % 3], last = units[name / 9];
        put_whole();
        put(44, 2, one);
        put(46, 2, two);
        put(48, 2, last);
        if (one == 0 || two == 0 || last != 0)
            same_refusal(answered(input, LENGTH, true), UGB_PROVIDER, one == 0 ? 44 : two == 0 ? 46 : 48);
        else
            same_refusal(answered(input, LENGTH, true), UGB_ACCEPTED, 0);
        for (size_t at = 40; at <= P; at++)
            finished_as(feed(feed(ugb_start(true), input, at), input + at, LENGTH - at), input, LENGTH, true);
    }
}

/* The provider's type lies where an identity would begin. */
static void check_type_first(void)
{
    put_security(0x0080, (const uint32_t[5]){0, 0, 0, 0, 8}, 24);
    put(16, 4, 0x0B0C0D0E);
    put(20, 2, 'p');
    SAME(ugb_summarize(input, 80, true).summary.security.provider_type, 0x0B0C0D0E);
    for (size_t end = 0; end < 80; end++)
        same_refusal(answered(input, end, true), UGB_INPUT_SHORT, end < 24 ? 0 : 24);
    same_refusal(answered(input, 80, true), UGB_ACCEPTED, 0);
}

/* No byte, behind no pointer: the empty input. */
static void check_null(void)
{
    for (int security_first = 0; security_first <= 1; security_first++) {
        const ugb_portions start = ugb_start(security_first);
        finished_as(start, NULL, 0, security_first);
        finished_as(feed(feed(start, NULL, 0), input, 0), NULL, 0, security_first);
    }
}

/* A copy goes on from where it was taken, whatever became of the state. */
static void check_copies(void)
{
    put_whole();
    for (size_t at = 0; at < LENGTH; at++) {
        ugb_portions state = feed(ugb_start(true), input, at);
        const ugb_portions copy = state;
        state = feed(state, correlation_id, sizeof correlation_id);
        ugb_finish(&state);
        finished_as(feed(copy, input + at, LENGTH - at), input, LENGTH, true);
        finished_as(copy, input, at, true);
    }
}

/* The longest label, and the longest section, in which bytes of any number follow. */
static void check_longest(void)
{
    put_properties(0, 250, 0);
    same_refusal(answered(input, 556, false), UGB_ACCEPTED, 0);
    put(554, 2, 'b');
    same_refusal(answered(input, 556, false), UGB_LABEL, 554);
    put_properties(0, 0, 0);
    put(32, 4, UGB_LIMIT - 56);
    put(36, 4, UGB_LIMIT - 56);
    finished_as(feed_cut(ugb_start(false), input, UGB_LIMIT - 1, 100000), input, UGB_LIMIT - 1, false);
    ugb_portions state = feed_cut(ugb_start(false), input, UGB_LIMIT, 100000);
    for (int i = 0; i < 5; i++) {
        finished_as(state, input, UGB_LIMIT, false);
        state = feed(state, input, UGB_LIMIT);
    }
    SAME(state.counters[2], 16777216);
    SAME(ugb_finish(&state).summary.parts.section_length, UGB_LIMIT);
}

static void check_zero(const uint8_t *bytes, size_t length)
{
    for (size_t i = 0; i < length; i++)
        SAME(bytes[i], 0);
}

/* However it is cut, nothing of what follows the label is held, and without a SecurityHeader nothing of one. */
static void check_held(void)
{
    for (size_t units = 0; units <= 250; units++) {
        const size_t end = 56 + 2 * units;
        put_properties(0, (uint8_t)units, 0);
        memset(input + end, 0xEE, 700);
        for (size_t most = 1; most <= 1000; most *= 3) {
            ugb_portions state = feed_cut(ugb_start(false), input, end + 700, most);
            SAME(memcmp(state.properties, input, end), 0);
            check_zero(state.properties + end, sizeof state.properties - end);
            check_zero(state.head, sizeof state.head);
            check_zero(state.provider_type, sizeof state.provider_type);
        }
    }
}

/* A state that was filled by other means, with bytes around it: each call answers, and writes nothing but the state. */
static void check_filled(void)
{
    static const size_t numbers[] = {0, 1, 16, 56, UGB_LIMIT, 16777215, 16777216, UINT32_MAX, SIZE_MAX - 1, SIZE_MAX};
    struct {
        uint8_t before[64];
        ugb_portions state;
        uint8_t behind[64];
    } lent;
    for (int i = 0; i < 20000; i++) {
        const int byte = rand() % 3 - 1;
        memset(&lent, 0xA5, sizeof lent);
        memset(lent.state.head, byte, sizeof lent.state.head);
        memset(lent.state.provider_type, byte, sizeof lent.state.provider_type);
        memset(lent.state.properties, byte, sizeof lent.state.properties);
        for (size_t k = 0; k < sizeof lent.state.counters / sizeof *lent.state.counters; k++)
            lent.state.counters[k] = numbers[(size_t)rand() % (sizeof numbers / sizeof *numbers)];
        lent.state.counters[1] = 0; /* not finished */
        same_refusal(ugb_portion(&lent.state, input, (size_t)rand() % 2000), UGB_ACCEPTED, 0);
        SAME(ugb_finish(&lent.state).refusal.number <= UGB_LABEL, true);
        SAME(lent.state.counters[1], 1);
        same_refusal(ugb_portion(&lent.state, input, 1), UGB_AFTER_THE_FINISH, 0);
        for (size_t k = 0; k < 64; k++)
            SAME(lent.before[k] == 0xA5 && lent.behind[k] == 0xA5, true);
    }
}

int main(void)
{
    check_cuts();
    check_bits();
    check_order();
    check_names();
    check_type_first();
    check_null();
    check_copies();
    check_longest();
    check_held();
    check_filled();
    report();
    return 0;
}
