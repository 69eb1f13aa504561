/* A section in portions, tuned: what is kept of it, and the calls with the answers of ugbariteyo.h. */
#ifndef PORTIONS_H
#define PORTIONS_H

#include "steps.h"

enum { IDENTITY_HELD = 2, PROVIDER_TYPE = 4 };

typedef struct tuned_portions {
    uint8_t piece; /* which one is wanted */
    bool security_first, finished;
    uint8_t low;     /* the first byte of a unit of the name, where its second did not come yet */
    uint32_t number; /* of S2 to S8 */
    size_t received; /* at most SIZE_MAX */
    size_t wanted;   /* up to here bytes are only counted */
    size_t came;     /* how many bytes of the piece came */
    size_t zero;     /* where the first zero unit of the name stands in it; SIZE_MAX where none came */
    security first;
    uint8_t head[SECURITY_FIXED + IDENTITY_HELD];
    uint8_t type[PROVIDER_TYPE];
    uint8_t properties[PROPERTIES_FIXED + LABEL_MOST];
} tuned_portions;

/* State and answer are where the hidden pointers of ugb_start and ugb_finish would have them. */
void tuned_start(tuned_portions *x, bool security_first);
ugb_refusal tuned_portion(tuned_portions *x, const uint8_t *bytes, size_t length);
void tuned_finish(ugb_summarized *answer, tuned_portions *x);

#endif
