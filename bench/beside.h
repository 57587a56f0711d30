/* Pixman's side: the same picture from and into the same memory. */
#ifndef BENCH_BESIDE_H
#define BENCH_BESIDE_H

#include "job.h"

struct beside {
    const struct job *job;
    struct size output;
    uint8_t *memory;
    pixman_image_t *source, *mask, *into;
};

/* Images are made before anything is timed, as a user of pixman keeps his. */
void beside_open(struct beside *beside, const struct job *job, struct size size, uint8_t *memory);
void beside_draw(const struct beside *beside);
void beside_close(struct beside *beside);

#endif
