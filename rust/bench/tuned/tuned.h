/* The limit that the benchmark holds the library against: reading, whole and in portions (portions.h), support copy,
 * its check and writing of sections, reading of a body's number, reading and writing of images, reading of a day's
 * file, in C tuned by hand for x86-64, with the answers of ugbariteyo.h for every input. */
#ifndef TUNED_H
#define TUNED_H

#include "ugbariteyo.h"

/* A reading goes where the hidden pointer of ugb_read or ugb_read_image would have it; a struct returned by value gcc
 * would copy. */
void tuned_read(ugb_reading *answer, const uint8_t *s, size_t s_length, bool security_first);
void tuned_read_image(ugb_image_read *answer, const uint8_t *s, size_t s_length);
__typeof__(ugb_support_copy) tuned_support_copy;
__typeof__(ugb_is_support_copy) tuned_is_support_copy;
__typeof__(ugb_write_section_positional) tuned_write_section;
__typeof__(ugb_write_image) tuned_write_image;
__typeof__(ugb_read_day) tuned_read_day;
__typeof__(ugb_read_value) tuned_read_value;

#endif
