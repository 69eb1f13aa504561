/* Fixed inputs, the same as in src/samples.rs. */
#ifndef SAMPLES_H
#define SAMPLES_H

#include "given.h"

/* Sections: no security, with a body of 100 bytes and of 4 KB; every security part, and a label of 250 units. */
extern const given plain_sample, long_sample, secured_sample;

/* The first and the third of them with a body of 8 bytes that is a number, a float, and not encrypted. */
extern const given number_sample, secured_number_sample;

/* A signed request with a title of 40 units and a body of 100 bytes: sent, and its defaulted properties. */
ugb_sent send_sample(uint8_t *out, size_t out_length);
ugb_defaulted_answer defaulted_sample(void);

/* The image of a direct format name. */
extern const ugb_bytes image_sample;

#endif
