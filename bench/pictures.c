/*
 * Two sources and one output. The random source has random bytes, alpha included. The page-like one comes in runs of 4 to 43 pixels: of 100 runs
 * 55 are empty (all zero), 35 opaque and 10 of random alpha, as text and pictures over a page are.
 */
#include "pictures.h"

#include <string.h>

static uint8_t random_source[OUTPUT], page_source[OUTPUT], output_start[MEMORY - OUTPUT];
static uint32_t state = 1;

static uint32_t next_random(void)
{
    state = state * 1664525u + 1013904223u;
    return state >> 16;
}

static void set_random(uint8_t *bytes, size_t size)
{
    size_t i;

    for (i = 0; i < size; i++)
        bytes[i] = (uint8_t)(next_random() >> 8);
}

/* Makes one run of pixels empty, opaque or leaves it random. */
static void set_run(uint8_t *run, size_t size)
{
    uint32_t kind = next_random() % 100;
    size_t i;

    for (i = 0; kind < 90 && i < size; i += 4) {
        if (kind < 55)
            memset(run + i, 0, 4);
        else
            run[i + 3] = 255;
    }
}

static void set_page_like(uint8_t *bytes, size_t size)
{
    size_t at = 0;

    while (at < size) {
        size_t run = 4 * (4 + next_random() % 40);

        run = run < size - at ? run : size - at;
        set_run(bytes + at, run);
        at += run;
    }
}

void pictures_start(void)
{
    set_random(random_source, sizeof random_source);
    set_random(output_start, sizeof output_start);
    memcpy(page_source, random_source, sizeof page_source);
    set_page_like(page_source, sizeof page_source);
}

static const uint8_t *source_of(const struct job *job)
{
    return job->page_like ? page_source : random_source;
}

void set_memory(uint8_t *into, const struct job *job)
{
    memcpy(into + SOURCE, source_of(job), OUTPUT);
    memcpy(into + OUTPUT, output_start, sizeof output_start);
}

void set_source(uint8_t *into, const struct job *job, struct size size)
{
    memcpy(into + SOURCE, source_of(job), (size_t)stride_of(size.width, job->source_format) * (size_t)size.height);
}

void set_output(uint8_t *into, const struct job *job, struct size size)
{
    struct size output = output_size(job, size);

    memcpy(into + OUTPUT, output_start, (size_t)stride_of(output.width, job->output_format) * (size_t)output.height);
}
