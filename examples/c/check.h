/* What the C tests share: comparisons that end the program at the first that fails, headers put into an input, and an
 * output with a pattern. */
#include <stdio.h>
#include <stdlib.h>
#include <string.h>

#include "members.h"
#include "ugbariteyo.h"

#define SAME(found, wanted) same((size_t)(found), (size_t)(wanted), #found, __LINE__)

static unsigned compared;

static inline void same(size_t found, size_t wanted, const char *what, int line)
{
    compared++;
    if (found == wanted)
        return;
    fprintf(stderr, "line %d: %s is %zu, not %zu\n", line, what, found, wanted);
    exit(1);
}

#define BYTES(array) {array, sizeof array}
static const uint8_t correlation_id[20] = {1, 2, 3, 4, 5, 6, 7, 8, 9, 10, 11, 12, 13, 14, 15, 16, 17, 18, 19, 20};
static uint8_t input[UGB_LIMIT];
static uint8_t out[1024];

static inline void put(size_t at, unsigned width, uint32_t number)
{
    for (unsigned i = 0; i < width; i++)
        input[at + i] = (uint8_t)(number >> (8 * i));
}

/* A MessagePropertiesHeader at p, with that label and no other part. */
static inline void put_properties(size_t p, uint8_t units, uint16_t class)
{
    memset(input + p, 0, 1024);
    put(p + 1, 1, units);
    put(p + 2, 2, class);
    for (unsigned i = 0; i + 1 < units; i++)
        put(p + 56 + 2 * i, 2, 'a');
}

/* A SecurityHeader with these sizes and zero content, and a MessagePropertiesHeader behind its length. */
static inline void put_security(uint16_t flags, const uint32_t sizes[5], size_t length)
{
    memset(input, 0, 1024);
    put(0, 2, flags);
    put(2, 2, sizes[0]);
    put(4, 2, sizes[1]);
    put(6, 2, sizes[2]);
    put(8, 4, sizes[3]);
    put(12, 4, sizes[4]);
    put_properties(length, 0, 0);
}

/* A section with every part, whose MessagePropertiesHeader begins at P: 16 + 8 + 4 + 8 + 4 + 12, then 56 + 6 + 5 + 2,
 * padded. Its provider name begins at 44. */
enum { P = 52, LENGTH = 124 };

static inline void put_whole(void)
{
    put_security(0x0081, (const uint32_t[5]){8, 3, 5, 2, 10}, P);
    put(16, 1, 1);
    put(44, 2, 'p');
    put(46, 2, 'q');
    put_properties(P, 3, 0);
    put(P + 32, 4, 2);
    put(P + 36, 4, 2);
    put(P + 52, 4, 5);
}

static inline void pattern(void)
{
    memset(out, 0xA5, sizeof out);
}

/* Nothing of the output from there on was written. */
static inline void untouched_from(size_t at)
{
    for (size_t i = at; i < sizeof out; i++)
        SAME(out[i], 0xA5);
}

/* Of a refusal nothing else is set. */
#define ZERO(member) SAME(member, 0);

static inline void same_refusal(ugb_refusal found, uint32_t number, size_t place)
{
    SAME(found.number, number);
    SAME(found.place, place);
}

static inline void same_part(ugb_part found, size_t start, size_t length)
{
    SAME(found.start, start);
    SAME(found.length, length);
}

/* Refused: the output is as it was. */
static inline void refused(ugb_output found, uint32_t number, size_t place)
{
    same_refusal(found.refusal, number, place);
    SAME(found.length, 0);
    untouched_from(0);
}

/* Written: the bytes behind it are as they were. */
static inline void written(ugb_output found, size_t length)
{
    same_refusal(found.refusal, UGB_ACCEPTED, 0);
    SAME(found.length, length);
    untouched_from(length);
}

static inline void report(void)
{
    printf("%u comparisons, all the same\n", compared);
}
