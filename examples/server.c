/*
 * A small server's loop in C. Four clients hand in batches, the server hands them over piece by piece as they come, and runs them when the queue is
 * full or the input ends. It keeps one engine from the first input to the last, and prints a line for each batch.
 *
 *     server [--picture OUT.ppm ADDRESS STRIDE WIDTH HEIGHT FORMAT] [INPUT ..]
 *
 * An input is a replay file, standard input if none is named: a byte 1, and then records of a length (four bytes, the highest first), a client's
 * byte and a batch; the length counts both. A batch that was run prints client, ticket, status, fault and place; a refused one its client and the
 * refusal's number; a damaged input what is wrong with it. At the end a rectangle of memory may be written as a picture; FORMAT is ARGB8888,
 * RGB888 or RGB565. examples/run_c builds and runs it.
 */
#include "wenditsal.h"

#include <stdio.h>
#include <stdlib.h>
#include <string.h>

enum { RING = 32768, MEMORY = 65536, COMMON = 16384, WINDOW = 12288, CLIENTS = 4, LONGEST_RECORD = 32769, PIECE = 256 };

struct server {
    uint8_t engine[WENDITSAL_ENGINE_SIZE];
    uint8_t ring[RING];
    uint8_t memory[MEMORY];
};

/* ---- the loop */

/* Sets up the engine and opens the four clients. Answers the refusal's number. Files of version 1 are written for the old reset rule. */
static uint32_t start(struct server *server)
{
    uint32_t refusal =
        wenditsal_set_up(server->engine, sizeof server->engine, RING, MEMORY, COMMON, WENDITSAL_RESET_UNBLENDED);
    uint32_t id;
    uint32_t i;

    for (i = 0; refusal == 0 && i < CLIENTS; i++)
        refusal = wenditsal_open(server->engine, sizeof server->engine, COMMON + i * WINDOW, WINDOW, &id);
    return refusal;
}

/* Runs the oldest batch and prints its line. Answers the refusal's number, 9 where no batch is left. */
static uint32_t run_one(struct server *server)
{
    struct wenditsal_completion done;
    uint32_t refusal = wenditsal_run(
        server->engine, sizeof server->engine, server->ring, sizeof server->ring, server->memory, sizeof server->memory, &done);

    if (refusal == 0)
        printf("%u %u %08X %u %u\n", (unsigned)done.client, (unsigned)done.ticket, (unsigned)done.status, (unsigned)done.fault,
            (unsigned)done.place);
    return refusal;
}

static void run_all(struct server *server)
{
    while (run_one(server) == 0) {
    }
}

static uint32_t begin(struct server *server, uint32_t client, size_t size)
{
    return wenditsal_begin(server->engine, sizeof server->engine, server->ring, sizeof server->ring, client, size);
}

/* Begins a batch. One that finds no slot or no room waits until older ones are run. */
static uint32_t begin_when_free(struct server *server, uint32_t client, size_t size)
{
    uint32_t refusal = begin(server, client, size);

    while ((refusal == WENDITSAL_NO_SLOT || refusal == WENDITSAL_NO_ROOM) && run_one(server) == 0)
        refusal = begin(server, client, size);
    return refusal;
}

static uint32_t hand_over(struct server *server, uint32_t client, const uint8_t *piece, size_t size)
{
    struct wenditsal_progress progress;

    return wenditsal_piece(
        server->engine, sizeof server->engine, server->ring, sizeof server->ring, client, piece, size, &progress);
}

/*
 * Hands a batch over as it comes, a piece at a time; a server that has a whole batch at hand submits it. One that is cut short is dropped again: a
 * cancel that is refused changes nothing. Answers whether all of it came. Lines come in the order of the batches.
 */
static int serve(struct server *server, uint32_t client, size_t size, FILE *input)
{
    uint8_t piece[PIECE];
    uint32_t refusal = begin_when_free(server, client, size);

    while (size > 0) {
        size_t next = size < sizeof piece ? size : sizeof piece;

        if (fread(piece, 1, next, input) < next) {
            wenditsal_cancel(server->engine, sizeof server->engine, client);
            return 0;
        }
        if (refusal == 0)
            refusal = hand_over(server, client, piece, next);
        size -= next;
    }
    if (refusal != 0) {
        run_all(server);
        printf("%u - - %u 0\n", (unsigned)client, (unsigned)refusal);
    }
    return 1;
}

/* ---- the input */

/* Serves the records of an input. Answers what is wrong with a damaged one. */
static const char *serve_input(struct server *server, FILE *input)
{
    uint8_t head[4];

    if (fgetc(input) != 1)
        return "bad version";
    for (;;) {
        size_t got = fread(head, 1, sizeof head, input);
        size_t length;
        int client;

        if (got == 0)
            return NULL;
        if (got < sizeof head)
            return "cut record";
        length = (size_t)head[0] << 24 | (size_t)head[1] << 16 | (size_t)head[2] << 8 | (size_t)head[3];
        if (length == 0 || length > LONGEST_RECORD)
            return "bad record";
        client = fgetc(input);
        if (client == EOF || !serve(server, (uint32_t)client, length - 1, input))
            return "cut record";
    }
}

/* Serves a whole input and runs what is left of it. Answers 0, or 1 if it could not be read. */
static int serve_all(struct server *server, FILE *input)
{
    const char *damage = serve_input(server, input);

    run_all(server);
    if (damage != NULL)
        printf("%s\n", damage);
    return ferror(input) != 0;
}

static int serve_file(struct server *server, const char *name)
{
    FILE *input = fopen(name, "rb");
    int failed = 1;

    if (input != NULL) {
        failed = serve_all(server, input);
        fclose(input);
    }
    if (failed)
        fprintf(stderr, "server: %s cannot be read\n", name);
    return failed;
}

/* ---- the picture */

struct rectangle {
    unsigned long address, stride, width, height, pixel_bytes;
};

/* A number in decimal or, after 0x, in hex; ULONG_MAX, which no rectangle has, for anything else. */
static unsigned long number_of(const char *word)
{
    char *end;
    unsigned long number = strtoul(word, &end, strncmp(word, "0x", 2) == 0 ? 16 : 10);

    return *word >= '0' && *word <= '9' && *end == '\0' ? number : (unsigned long)-1;
}

/* 0 for the name of no format. */
static unsigned long pixel_bytes_of(const char *format)
{
    if (strcmp(format, "ARGB8888") == 0)
        return 4;
    if (strcmp(format, "RGB888") == 0)
        return 3;
    return strcmp(format, "RGB565") == 0 ? 2 : 0;
}

/* ADDRESS STRIDE WIDTH HEIGHT FORMAT. Answers whether they name a rectangle that lies in memory. */
static int rectangle_of(char **words, struct rectangle *r)
{
    r->address = number_of(words[0]);
    r->stride = number_of(words[1]);
    r->width = number_of(words[2]);
    r->height = number_of(words[3]);
    r->pixel_bytes = pixel_bytes_of(words[4]);
    if (r->pixel_bytes == 0 || r->address > MEMORY || r->stride > 65535)
        return 0;
    if (r->width < 1 || r->width > 4096 || r->height < 1 || r->height > 4096)
        return 0;
    return r->address + r->stride * (r->height - 1) + r->width * r->pixel_bytes <= MEMORY;
}

/* R, G, B of the pixel at these bytes. */
static void colour_of(const uint8_t *pixel, unsigned long pixel_bytes, uint8_t rgb[3])
{
    if (pixel_bytes == 2) {
        unsigned word = pixel[0] + 256u * pixel[1];
        unsigned red = word >> 11, green = word >> 5 & 63, blue = word & 31;

        rgb[0] = (uint8_t)(red * 8 + red / 4);
        rgb[1] = (uint8_t)(green * 4 + green / 16);
        rgb[2] = (uint8_t)(blue * 8 + blue / 4);
        return;
    }
    rgb[0] = pixel[2];
    rgb[1] = pixel[1];
    rgb[2] = pixel[0];
}

static int write_picture(const struct server *server, const char *name, const struct rectangle *r)
{
    FILE *file = fopen(name, "wb");
    uint8_t rgb[3];
    unsigned long i;
    int failed = 1;

    if (file != NULL) {
        fprintf(file, "P6\n%lu %lu\n255\n", r->width, r->height);
        for (i = 0; i < r->width * r->height; i++) {
            const uint8_t *row = server->memory + r->address + r->stride * (i / r->width);

            colour_of(row + i % r->width * r->pixel_bytes, r->pixel_bytes, rgb);
            fwrite(rgb, 1, sizeof rgb, file);
        }
        failed = ferror(file) != 0;
        failed |= fclose(file) != 0;
    }
    if (failed)
        fprintf(stderr, "server: %s cannot be written\n", name);
    return failed;
}

/* ---- the program */

int main(int count, char **words)
{
    static struct server server;
    struct rectangle rectangle;
    const char *picture = NULL;
    int at = 1;
    int failed = 0;

    if (at < count && strcmp(words[at], "--picture") == 0) {
        if (count < at + 7 || !rectangle_of(words + at + 2, &rectangle)) {
            fprintf(stderr, "server [--picture OUT.ppm ADDRESS STRIDE WIDTH HEIGHT FORMAT] [INPUT ..]; the rectangle must lie in memory\n");
            return 2;
        }
        picture = words[at + 1];
        at += 7;
    }
    if (start(&server) != 0)
        return 1;
    if (at == count)
        failed = serve_all(&server, stdin);
    for (; at < count; at++)
        failed |= serve_file(&server, words[at]);
    if (picture != NULL)
        failed |= write_picture(&server, picture, &rectangle);
    return failed | (fflush(stdout) != 0);
}
