/* The engine's side, through the calls that users link: set up, open, submit and run on lent memory. */
#ifndef BENCH_ENGINE_H
#define BENCH_ENGINE_H

#include "job.h"

enum { RING = 32768 };

/* The memory that is drawn into, by all sides. */
extern uint8_t memory[MEMORY];

struct batch {
    uint8_t bytes[RING];
    size_t size;
    uint32_t tasks;
};

/* Sets up the engine and opens one client, whose window is all of memory. */
void engine_start(void);
/* The batch that draws the job so often: each task but the first has 8 bytes, the output's address. */
void write_batch(struct batch *batch, const struct job *job, struct size size, int tasks);
/* The same, with all 80 bytes in each task. */
void write_whole_tasks(struct batch *batch, const struct job *job, struct size size, int tasks);
/* Submits the batch and runs it. */
void engine_draw(const struct batch *batch);

#endif
