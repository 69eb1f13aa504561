/* What a section or an image is written from, and writers that take its parts in turn. */
#ifndef GIVEN_H
#define GIVEN_H

#include "ugbariteyo.h"

typedef struct given {
    const ugb_section_values *values;
    ugb_section_parts parts;
} given;

typedef __typeof__(ugb_write_section_positional) writer;

static inline ugb_output write_given(writer *write, const given *g, uint8_t *out, size_t out_length)
{
    return write(*g->values, UGB_SECTION_PARTS(&g->parts), out, out_length);
}

typedef struct given_image {
    ugb_queue_format format;
    ugb_bytes fixed, text;
} given_image;

typedef __typeof__(ugb_write_image) image_writer;

static inline ugb_output write_given_image(image_writer *write, const given_image *g, uint8_t *out, size_t out_length)
{
    return write(g->format, g->fixed.bytes, g->fixed.length, g->text.bytes, g->text.length, out, out_length);
}

#endif
