/* Numbers and parts put into an output, which sections and images share. */
#ifndef PUT_H
#define PUT_H

#include <stdint.h>
#include <string.h>

static inline void put32(uint8_t *to, uint32_t number)
{
    memcpy(to, &number, sizeof number);
}

/* Without a call for nothing. */
static inline uint8_t *put(uint8_t *to, const uint8_t *part, size_t length)
{
    if (length != 0)
        memcpy(to, part, length);
    return to + length;
}

#endif
