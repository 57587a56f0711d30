#include "reference.h"

/* ---- pixels */

struct channels raw_channels(const uint8_t *pixel, uint32_t format)
{
    int word = pixel[0] + 256 * pixel[1];

    if (format == WENDITSAL_RGB565)
        return (struct channels){{word & 31, word >> 5 & 63, word >> 11, 255}};
    return (struct channels){{pixel[0], pixel[1], pixel[2], format == WENDITSAL_ARGB8888 ? pixel[3] : 255}};
}

/* Channels of 8 bits: those of RGB565 are widened by their own upper bits. */
static struct channels load(const uint8_t *pixel, uint32_t format)
{
    struct channels c = raw_channels(pixel, format);

    if (format == WENDITSAL_RGB565)
        return (struct channels){{c.of[0] * 8 + c.of[0] / 4, c.of[1] * 4 + c.of[1] / 16, c.of[2] * 8 + c.of[2] / 4, 255}};
    return c;
}

static void store(uint8_t *pixel, uint32_t format, struct channels c)
{
    int word = c.of[2] / 8 * 2048 + c.of[1] / 4 * 32 + c.of[0] / 8;
    int i;

    if (format == WENDITSAL_RGB565) {
        pixel[0] = (uint8_t)(word % 256);
        pixel[1] = (uint8_t)(word / 256);
        return;
    }
    for (i = 0; i < pixel_bytes(format); i++)
        pixel[i] = (uint8_t)c.of[i];
}

static struct channels colour_channels(uint32_t colour)
{
    return (struct channels){{(int)(colour & 255), (int)(colour >> 8 & 255), (int)(colour >> 16 & 255), (int)(colour >> 24)}};
}

/* ---- blending */

static int share(int sum)
{
    return (sum + 127) / 255;
}

static int factor(uint32_t code, int source_alpha, int destination_alpha)
{
    int factors[6] = {0, 255, source_alpha, 255 - source_alpha, destination_alpha, 255 - destination_alpha};

    return factors[code];
}

static int source_alpha(uint32_t alpha_mode, int own)
{
    int alphas[3] = {own, GLOBAL_ALPHA, share(own * GLOBAL_ALPHA)};

    return alphas[alpha_mode];
}

static struct channels blended(const struct job *job, struct channels s, struct channels d)
{
    struct channels out;
    int fs, fd, i;

    s.of[3] = source_alpha(job->alpha_mode, s.of[3]);
    fs = factor(job->source_factor, s.of[3], d.of[3]);
    fd = factor(job->destination_factor, s.of[3], d.of[3]);
    for (i = 0; i < 4; i++) {
        int sum = share(s.of[i] * fs + d.of[i] * fd);

        out.of[i] = sum < 255 ? sum : 255;
    }
    return out;
}

/* ---- pictures */

static struct channels source_channels(const struct job *job, struct size size, const uint8_t *from, int x, int y)
{
    struct place at = source_place(job, size, x, y);

    if (job->colour)
        return colour_channels(COLOUR);
    return load(from + SOURCE + at.y * stride_of(size.width, job->source_format) + at.x * pixel_bytes(job->source_format), job->source_format);
}

static void draw_pixel(const struct job *job, struct size size, uint8_t *into, int x, int y)
{
    int stride = stride_of(output_size(job, size).width, job->output_format);
    uint8_t *pixel = into + OUTPUT + y * stride + x * pixel_bytes(job->output_format);
    struct channels source = source_channels(job, size, into, x, y);

    store(pixel, job->output_format, job->blend ? blended(job, source, load(pixel, job->output_format)) : source);
}

void reference_draw(const struct job *job, struct size size, uint8_t *into)
{
    struct size output = output_size(job, size);
    int i;

    for (i = 0; i < output.width * output.height; i++)
        draw_pixel(job, size, into, i % output.width, i / output.width);
}
