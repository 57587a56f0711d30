#include "engine.h"

#include <stdio.h>
#include <stdlib.h>
#include <string.h>

/* An engine with nothing ready and one client. */
_Alignas(4096) uint8_t memory[MEMORY];
static uint8_t record[WENDITSAL_ENGINE_SIZE], ring[RING];
static uint32_t client;

/* The header of a group with one word, the output's address, which ends a task. */
enum { LAST_GROUP = 0x01100005 };

static void accepted(const char *call, uint32_t refusal)
{
    if (refusal != 0) {
        fprintf(stderr, "bench: %s was refused with %u\n", call, (unsigned)refusal);
        exit(1);
    }
}

void engine_start(void)
{
    accepted("set up", wenditsal_set_up(record, sizeof record, sizeof ring, sizeof memory, 0, WENDITSAL_RESET_SRC_OVER));
    accepted("open", wenditsal_open(record, sizeof record, 0, sizeof memory, &client));
}

void engine_draw(const struct batch *batch)
{
    struct wenditsal_completion done;
    uint32_t ticket;

    accepted("submit", wenditsal_submit(record, sizeof record, ring, sizeof ring, client, batch->bytes, batch->size, &ticket));
    accepted("run", wenditsal_run(record, sizeof record, ring, sizeof ring, memory, sizeof memory, &done));
    if (done.status != batch->tasks * 65536 + 1) {
        fprintf(stderr, "bench: status %08X, fault %u at %u\n", (unsigned)done.status, (unsigned)done.fault, (unsigned)done.place);
        exit(1);
    }
}

/* ---- batches */

static struct wenditsal_surface surface(struct size size, uint32_t format, uint32_t address)
{
    return (struct wenditsal_surface){
        .width = (uint32_t)size.width,
        .height = (uint32_t)size.height,
        .stride = (uint32_t)stride_of(size.width, format),
        .address = address,
        .format = format,
    };
}

static struct wenditsal_fields fields_of(const struct job *job, struct size size)
{
    struct wenditsal_surface output = surface(output_size(job, size), job->output_format, OUTPUT);

    return (struct wenditsal_fields){
        .source = {
            .surface = surface(size, job->source_format, SOURCE),
            .alpha_mode = job->alpha_mode,
            .global_alpha = GLOBAL_ALPHA,
            .flip_h = job->flip_h,
            .flip_v = job->flip_v,
            .quarter_turns = job->turns,
            .mode = job->colour,
            .enable = 1,
        },
        .destination = {.surface = output, .enable = 1},
        .output = output,
        .colour = COLOUR,
        .source_factor = job->source_factor,
        .destination_factor = job->destination_factor,
        .blend = job->blend,
    };
}

static void add_task(struct batch *batch, const struct job *job, struct size size)
{
    accepted("encode", wenditsal_encode(fields_of(job, size), batch->bytes + batch->size, sizeof batch->bytes - batch->size));
    batch->size += WENDITSAL_TASK_SIZE;
    batch->tasks++;
}

static void add_word(struct batch *batch, uint32_t word)
{
    int i;

    for (i = 0; i < 4; i++)
        batch->bytes[batch->size++] = (uint8_t)(word >> 8 * i);
}

void write_batch(struct batch *batch, const struct job *job, struct size size, int tasks)
{
    batch->size = batch->tasks = 0;
    add_task(batch, job, size);
    while ((int)batch->tasks < tasks) {
        add_word(batch, LAST_GROUP);
        add_word(batch, OUTPUT);
        batch->tasks++;
    }
}

void write_whole_tasks(struct batch *batch, const struct job *job, struct size size, int tasks)
{
    batch->size = batch->tasks = 0;
    while ((int)batch->tasks < tasks)
        add_task(batch, job, size);
}
