/*
 * A further task is the difference of two batches that differ in their number of tasks. A batch is one submit and one run. Beside a task stands
 * a call of pixman for the same picture.
 */
#include "costs.h"

#include "beside.h"
#include "clock.h"
#include "engine.h"
#include "pictures.h"

#include <stdio.h>
#include <string.h>

/* Tasks in the two batches; batches and calls of pixman in one timing. */
enum { FEW = 10, MANY = 400, BATCHES = 50, CALLS = 500 };

static const struct {
    const char *name;
    const char *job;
    struct size size;
} tasks[] = {
    {"fill 1x1", "fill 8888", {1, 1}},
    {"fill 16x16", "fill 8888", {16, 16}},
    {"copy 1x1", "copy 8888", {1, 1}},
    {"copy 16x16", "copy 8888", {16, 16}},
    {"SRC_OVER 1x1", "SRC_OVER, random", {1, 1}},
    {"SRC_OVER 16x16", "SRC_OVER, random", {16, 16}},
};

static const struct job *job_named(const char *name)
{
    int i = 0;

    while (i < job_count - 1 && strcmp(jobs[i].name, name) != 0)
        i++;
    return &jobs[i];
}

/* ---- what is timed */

static void draw_batches(const void *with)
{
    int i;

    for (i = 0; i < BATCHES; i++)
        engine_draw(with);
}

static void draw_pixman(const void *with)
{
    int i;

    for (i = 0; i < CALLS; i++)
        beside_draw(with);
}

/* Nanoseconds of one batch. */
static double batch_time(const struct batch *batch, int rounds)
{
    double least = 0;

    while (rounds-- > 0)
        keep_least(&least, nanoseconds(draw_batches, batch) / BATCHES);
    return least;
}

typedef void write_tasks(struct batch *batch, const struct job *job, struct size size, int tasks);

/* Nanoseconds of a further task, as these batches are written. */
static double task_time(write_tasks *write, const struct job *job, struct size size, int rounds)
{
    static struct batch few, many;

    write(&few, job, size, FEW);
    write(&many, job, size, MANY);
    return (batch_time(&many, rounds) - batch_time(&few, rounds)) / (MANY - FEW);
}

static double pixman_time(const struct job *job, struct size size, int rounds)
{
    struct beside beside;
    double least = 0;

    beside_open(&beside, job, size, memory);
    while (rounds-- > 0)
        keep_least(&least, nanoseconds(draw_pixman, &beside) / CALLS);
    beside_close(&beside);
    return least;
}

void bench_costs(int rounds)
{
    static struct batch one;
    size_t i;

    printf("\nNanoseconds a task: a further one of 8 bytes, a further one of 80 bytes; a batch of one task, by submit and run; a call of pixman\n\n");
    printf("| task | 8 bytes | 80 bytes | batch of one | pixman |\n|---|---|---|---|---|\n");
    for (i = 0; i < sizeof tasks / sizeof *tasks; i++) {
        const struct job *job = job_named(tasks[i].job);
        struct size size = tasks[i].size;

        set_memory(memory, job);
        write_batch(&one, job, size, 1);
        printf("| %s | %.0f | %.0f | %.0f | %.0f |\n", tasks[i].name, task_time(write_batch, job, size, rounds),
            task_time(write_whole_tasks, job, size, rounds), batch_time(&one, rounds), pixman_time(job, size, rounds));
    }
}
