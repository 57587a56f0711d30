/* Sizes and places of a job. */
#include "job.h"

int pixel_bytes(uint32_t format)
{
    return format == WENDITSAL_ARGB8888 ? 4 : format == WENDITSAL_RGB888 ? 3 : 2;
}

/* The least stride that the engine takes: a multiple of 8. */
int stride_of(int width, uint32_t format)
{
    return (width * pixel_bytes(format) + 7) / 8 * 8;
}

struct size output_size(const struct job *job, struct size source)
{
    return job->turns % 2 == 0 ? source : (struct size){source.height, source.width};
}

/* Undoes the turns, which come last, and then the flips. */
struct place source_place(const struct job *job, struct size source, int x, int y)
{
    int right = source.width - 1, bottom = source.height - 1;
    struct place turned[4] = {{x, y}, {y, bottom - x}, {right - x, bottom - y}, {right - y, x}};
    struct place at = turned[job->turns];

    return (struct place){job->flip_h ? right - at.x : at.x, job->flip_v ? bottom - at.y : at.y};
}
