/*
 * The engine's memory, all 16 MiB of it, must be the plain definition's byte for byte. Pixman's output must have the engine's channels, as near as
 * the job says.
 */
#include "check.h"

#include "beside.h"
#include "engine.h"
#include "pictures.h"
#include "reference.h"

#include <stdio.h>
#include <stdlib.h>
#include <string.h>

_Alignas(4096) static uint8_t other[MEMORY];

static void fail(const struct job *job, struct size size, const char *side, size_t at)
{
    fprintf(stderr, "bench: %s at %dx%d: %s has other pixels, first at byte %zu: %u, and the engine %u\n", job->name, size.width, size.height, side,
        at, other[at], memory[at]);
    exit(1);
}

static void check_reference(const struct job *job, struct size size)
{
    size_t at = 0;

    set_memory(other, job);
    reference_draw(job, size, other);
    if (memcmp(memory, other, MEMORY) == 0)
        return;
    while (memory[at] == other[at])
        at++;
    fail(job, size, "the plain definition", at);
}

/* Whether the channels of two pixels are as near as the job says. */
static int near_enough(const struct job *job, struct channels a, struct channels b)
{
    int far = job->agreement == EQUAL ? 0 : 1;
    int channels = job->agreement == COLOURS_ONE_APART ? 3 : 4;
    int i = 0;

    while (i < channels && abs(a.of[i] - b.of[i]) <= far)
        i++;
    return i == channels;
}

static void check_pixman(const struct job *job, struct size size)
{
    struct size output = output_size(job, size);
    int stride = stride_of(output.width, job->output_format), bytes = pixel_bytes(job->output_format);
    struct beside beside;
    int i;

    set_memory(other, job);
    beside_open(&beside, job, size, other);
    beside_draw(&beside);
    beside_close(&beside);
    for (i = 0; job->agreement != ANOTHER && i < output.width * output.height; i++) {
        int at = OUTPUT + i / output.width * stride + i % output.width * bytes;

        if (!near_enough(job, raw_channels(memory + at, job->output_format), raw_channels(other + at, job->output_format)))
            fail(job, size, "pixman", (size_t)at);
    }
}

void check_job(const struct job *job, struct size size)
{
    static struct batch batch;

    set_memory(memory, job);
    write_batch(&batch, job, size, 1);
    engine_draw(&batch);
    check_reference(job, size);
    check_pixman(job, size);
}
