/*
 * Times are the least of all rounds. In a round every job comes once, and the three sides of a job follow each other, so that a slow moment
 * of the machine meets all of them. Each side starts from the same output bytes.
 */
#include "drawing.h"

#include "beside.h"
#include "check.h"
#include "clock.h"
#include "engine.h"
#include "pictures.h"

#include <stdio.h>
#include <string.h>

enum size_index { AT_16X16, AT_61X37, AT_800X60, AT_1920X1080, SIZES };
enum side { ENGINE, PIXMAN, BOUND, SIDES };
enum { MOST_JOBS = 64, REPEATS = 2, PIXELS = 768000, MOST_TASKS = 4000 };

static const struct size sizes[SIZES] = {{16, 16}, {61, 37}, {800, 60}, {1920, 1080}};
/* Nanoseconds a pixel; 0 where nothing was timed. */
static double least[MOST_JOBS][SIZES][SIDES];

/* One job at one size, drawn so often that the clock is fine enough. */
struct trial {
    const struct job *job;
    struct size size;
    int tasks;
    struct batch batch;
    struct beside beside;
};

/* ---- the sides */

static void draw_engine(const void *with)
{
    const struct trial *trial = with;

    engine_draw(&trial->batch);
}

static void draw_pixman(const void *with)
{
    const struct trial *trial = with;
    int i;

    for (i = 0; i < trial->tasks; i++)
        beside_draw(&trial->beside);
}

static void bound_row(enum bound bound, uint8_t *to, const uint8_t *from, size_t bytes)
{
    if (bound == MEMSET)
        memset(to, 0x55, bytes);
    else
        memcpy(to, from, bytes);
    /* so that no row is left out because the next one overwrites it */
    __asm__ volatile("" ::: "memory");
}

/* The C library on the output's rows, one after the other. */
static void draw_bound(const void *with)
{
    const struct trial *trial = with;
    struct size output = output_size(trial->job, trial->size);
    size_t bytes = (size_t)(output.width * pixel_bytes(trial->job->output_format));
    int stride = stride_of(output.width, trial->job->output_format);
    int i;

    for (i = 0; i < trial->tasks * output.height; i++) {
        int row = i % output.height * stride;

        bound_row(trial->job->bound, memory + OUTPUT + row, memory + SOURCE + row, bytes);
    }
}

static void (*const sides[SIDES])(const void *) = {draw_engine, draw_pixman, draw_bound};

/* ---- timing */

static int tasks_at(struct size size)
{
    int tasks = PIXELS / (size.width * size.height);

    return tasks < 1 ? 1 : tasks < MOST_TASKS ? tasks : MOST_TASKS;
}

/* The first repeat warms the caches for the second. */
static void time_side(const struct trial *trial, int side, double *time)
{
    double pixels = (double)trial->tasks * trial->size.width * trial->size.height;
    int i;

    for (i = 0; i < REPEATS; i++) {
        set_output(memory, trial->job, trial->size);
        keep_least(time, nanoseconds(sides[side], trial) / pixels);
    }
}

static void time_job(const struct job *job, struct size size, double times[SIDES])
{
    static struct trial trial;
    int side;

    trial.job = job;
    trial.size = size;
    trial.tasks = tasks_at(size);
    write_batch(&trial.batch, job, size, trial.tasks);
    beside_open(&trial.beside, job, size, memory);
    set_source(memory, job, size);
    for (side = 0; side < SIDES; side++) {
        if (side != BOUND || job->bound != NONE_KNOWN)
            time_side(&trial, side, &times[side]);
    }
    beside_close(&trial.beside);
}

static int is_wanted(int job, const char *wanted)
{
    return strstr(jobs[job].name, wanted) != NULL;
}

static void each_job(const char *wanted, int size, void (*act)(int job, int size))
{
    int job;

    for (job = 0; job < job_count && job < MOST_JOBS; job++) {
        if (is_wanted(job, wanted))
            act(job, size);
    }
}

static void check_at(int job, int size) { check_job(&jobs[job], sizes[size]); }
static void time_at(int job, int size) { time_job(&jobs[job], sizes[size], least[job][size]); }

/* ---- the tables */

static double ratio(int job, int size) { return least[job][size][ENGINE] / least[job][size][PIXMAN]; }

/* A ratio, with a star if it is over its aim. */
static void print_ratio(int job, int size, double aim)
{
    printf(" %.2f%s |", ratio(job, size), aim != 0 && ratio(job, size) > aim ? "*" : "");
}

/* A number, or nothing for 0. */
static void print_number(int decimals, double number)
{
    printf(" ");
    if (number != 0)
        printf("%.*f", decimals, number);
    printf(" |");
}

static void print_ratios(int job, int unused)
{
    int side;

    (void)unused;
    printf("| %s |", jobs[job].name);
    print_ratio(job, AT_16X16, jobs[job].aim_16x16);
    print_ratio(job, AT_61X37, 0);
    print_ratio(job, AT_800X60, jobs[job].aim_800x60);
    print_ratio(job, AT_1920X1080, 0);
    for (side = 0; side < SIDES; side++)
        print_number(3, least[job][AT_800X60][side]);
    print_number(2, jobs[job].aim_16x16);
    print_number(2, jobs[job].aim_800x60);
    printf("\n");
}

static void print_times(int job, int unused)
{
    int size;

    (void)unused;
    printf("%-27s", jobs[job].name);
    for (size = 0; size < SIZES; size++)
        printf(" | %8.3f %8.3f %8.3f", least[job][size][ENGINE], least[job][size][PIXMAN], least[job][size][BOUND]);
    printf("\n");
}

static void print_tables(const char *wanted)
{
    int size;

    printf("Ratio of the engine's time to pixman's; * is over the aim. Then nanoseconds a pixel at 800x60, and the aims.\n\n");
    printf("| job | 16x16 | 61x37 | 800x60 | 1920x1080 | engine | pixman | memset, memcpy | aim 16x16 | aim 800x60 |\n");
    printf("|---|---|---|---|---|---|---|---|---|---|\n");
    each_job(wanted, 0, print_ratios);
    printf("\nNanoseconds a pixel: engine, pixman, memset or memcpy (0: neither bounds the job)\n%-27s", "");
    for (size = 0; size < SIZES; size++)
        printf(" | %20dx%-5d", sizes[size].width, sizes[size].height);
    printf("\n");
    each_job(wanted, 0, print_times);
}

void bench_drawing(int rounds, const char *wanted)
{
    int round, size;

    for (size = 0; size < SIZES; size++)
        each_job(wanted, size, check_at);
    printf("All jobs have the plain definition's bytes at all sizes, and pixman's pixels as near as bench/jobs.c says.\n\n");
    fflush(stdout);
    for (round = 0; round < rounds; round++) {
        for (size = 0; size < SIZES; size++)
            each_job(wanted, size, time_at);
    }
    print_tables(wanted);
}
