/* The plain definition of a job, pixel by pixel. It shares nothing with the engine. */
#ifndef BENCH_REFERENCE_H
#define BENCH_REFERENCE_H

#include "job.h"

/* Blue, green, red, alpha. */
struct channels {
    int of[4];
};

/* The channels of the pixel at these bytes, as wide as the format has them: 5, 6 and 5 bits in RGB565. */
struct channels raw_channels(const uint8_t *pixel, uint32_t format);
/* Draws the job into this memory. */
void reference_draw(const struct job *job, struct size size, uint8_t *into);

#endif
