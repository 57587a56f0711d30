#include "beside.h"

#include <stdio.h>
#include <stdlib.h>

/* ---- images */

static pixman_format_code_t code_of(uint32_t format, int opaque)
{
    if (format == WENDITSAL_RGB565)
        return PIXMAN_r5g6b5;
    if (format == WENDITSAL_RGB888)
        return PIXMAN_r8g8b8;
    return opaque ? PIXMAN_x8r8g8b8 : PIXMAN_a8r8g8b8;
}

static pixman_image_t *solid(uint32_t colour)
{
    pixman_color_t wide = {
        .alpha = (uint16_t)((colour >> 24 & 255) * 257),
        .red = (uint16_t)((colour >> 16 & 255) * 257),
        .green = (uint16_t)((colour >> 8 & 255) * 257),
        .blue = (uint16_t)((colour & 255) * 257),
    };

    return pixman_image_create_solid_fill(&wide);
}

static pixman_image_t *bits(uint8_t *first, struct size size, pixman_format_code_t code, int stride)
{
    return pixman_image_create_bits(code, size.width, size.height, (uint32_t *)(void *)first, stride);
}

/* One row of the matrix that takes an output pixel's middle to its source pixel's, given where x, y and the origin go. */
static void set_row(pixman_fixed_t row[3], int by_x, int by_y, int from)
{
    row[0] = pixman_int_to_fixed(by_x);
    row[1] = pixman_int_to_fixed(by_y);
    row[2] = pixman_int_to_fixed(from) + (pixman_fixed_1 - row[0] - row[1]) / 2;
}

static void set_transform(pixman_image_t *image, const struct job *job, struct size size)
{
    struct place from = source_place(job, size, 0, 0), right = source_place(job, size, 1, 0), below = source_place(job, size, 0, 1);
    pixman_transform_t transform = {.matrix[2][2] = pixman_fixed_1};

    set_row(transform.matrix[0], right.x - from.x, below.x - from.x, from.x);
    set_row(transform.matrix[1], right.y - from.y, below.y - from.y, from.y);
    pixman_image_set_transform(image, &transform);
    pixman_image_set_filter(image, PIXMAN_FILTER_NEAREST, NULL, 0);
}

/* A V flip alone is asked for in pixman's fastest way: rows upward, by a negative stride. */
static pixman_image_t *source_image(const struct job *job, struct size size, uint8_t *memory)
{
    int stride = stride_of(size.width, job->source_format);
    int upward = job->flip_v && !job->flip_h && job->turns == 0;
    uint8_t *first = memory + SOURCE + (upward ? stride * (size.height - 1) : 0);
    pixman_image_t *image = bits(first, size, code_of(job->source_format, job->way == MASKED_OPAQUE), upward ? -stride : stride);

    if (job->flip_h || job->turns != 0)
        set_transform(image, job, size);
    return image;
}

void beside_open(struct beside *beside, const struct job *job, struct size size, uint8_t *memory)
{
    struct size output = output_size(job, size);

    beside->job = job;
    beside->output = output;
    beside->memory = memory;
    beside->source = job->way == SOLID ? solid(COLOUR) : source_image(job, size, memory);
    beside->mask = job->way == MASKED || job->way == MASKED_OPAQUE ? solid((uint32_t)GLOBAL_ALPHA << 24) : NULL;
    beside->into = bits(memory + OUTPUT, output, code_of(job->output_format, 0), stride_of(output.width, job->output_format));
}

void beside_close(struct beside *beside)
{
    pixman_image_unref(beside->source);
    pixman_image_unref(beside->into);
    if (beside->mask != NULL)
        pixman_image_unref(beside->mask);
}

/* ---- drawing */

/* The colour as pixman_fill takes it: in the output's format. */
static uint32_t packed_colour(uint32_t format)
{
    uint32_t c = COLOUR;

    return format == WENDITSAL_RGB565 ? (c >> 19 & 31) << 11 | (c >> 10 & 63) << 5 | (c >> 3 & 31) : c;
}

static void fill(const struct beside *beside)
{
    uint32_t format = beside->job->output_format;
    int words = stride_of(beside->output.width, format) / 4;
    uint32_t *first = (uint32_t *)(void *)(beside->memory + OUTPUT);

    if (!pixman_fill(first, words, pixel_bytes(format) * 8, 0, 0, beside->output.width, beside->output.height, packed_colour(format))) {
        fprintf(stderr, "bench: pixman_fill has no way for %s\n", beside->job->name);
        exit(1);
    }
}

void beside_draw(const struct beside *beside)
{
    if (beside->job->way == FILL)
        fill(beside);
    else
        pixman_image_composite32(beside->job->operator, beside->source, beside->mask, beside->into, 0, 0, 0, 0, 0, 0, beside->output.width,
            beside->output.height);
}
