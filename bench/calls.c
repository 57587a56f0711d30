/*
 * How long each exported call takes, in nanoseconds: the best of several rounds, in processor time. And how much of a call is the record's bytes and
 * how much the record's rules, each as the difference of two calls:
 *   bytes in    pending of a record whose first rule is broken, less pending of a buffer of another length
 *   rules       pending, less pending of a record whose first rule is broken
 *   bytes out   set up accepted, less set up refused
 * bench/run_calls builds and runs it.
 */
#include "wenditsal.h"

#include <stdio.h>
#include <string.h>
#include <time.h>

enum { RING = 1024, MEMORY = 8192, COMMON = 1024, WINDOW = 1024, ROUNDS = 81, CALLS = 4000 };

static uint8_t engine[WENDITSAL_ENGINE_SIZE], saved[WENDITSAL_ENGINE_SIZE];
static uint8_t ring[RING], memory[MEMORY], batch[WENDITSAL_TASK_SIZE];
static size_t engine_size = sizeof engine;
static struct wenditsal_fields fields;
static struct wenditsal_completion done;
/* What the calls returned: written so that none is left out, and looked at once a measure. */
static volatile uint32_t returned;
static uint32_t value;

/* ---- the calls */

static void set_up(void) { returned = wenditsal_set_up(engine, engine_size, RING, MEMORY, COMMON, WENDITSAL_RESET_SRC_OVER); }
static void set_up_refused(void) { returned = wenditsal_set_up(engine, engine_size, RING + 1, MEMORY, COMMON, WENDITSAL_RESET_SRC_OVER); }
static void restore(void) { memcpy(engine, saved, sizeof engine); }
static void open_window(void) { returned = wenditsal_open(engine, engine_size, COMMON + 3 * WINDOW, WINDOW, &value); }
static void restore_open(void) { restore(); open_window(); }
static void submit(void) { returned = wenditsal_submit(engine, engine_size, ring, sizeof ring, 0, batch, sizeof batch, &value); }
static void restore_submit(void) { restore(); submit(); }
static void run(void) { returned = wenditsal_run(engine, engine_size, ring, sizeof ring, memory, sizeof memory, &done); }
static void restore_run(void) { restore(); run(); }
static void submit_run(void) { submit(); run(); }
static void pending(void) { returned = wenditsal_pending(engine, engine_size, 0, &value); }
static void encode(void) { returned = wenditsal_encode(fields, batch, sizeof batch); }

/* ---- measuring */

static double now(void) { return (double)clock() * (1e9 / CLOCKS_PER_SEC); }

/* Nanoseconds of one call. Anything but this answer of the last one is told. */
static double best(void (*call)(void), uint32_t expected)
{
    double least = 1e18;
    int round, i;

    for (round = 0; round < ROUNDS; round++) {
        double from = now();
        double each;

        for (i = 0; i < CALLS; i++)
            call();
        each = (now() - from) / CALLS;
        least = each < least ? each : least;
    }
    if (returned != expected)
        printf("  (answered %u, not %u)\n", (unsigned)returned, (unsigned)expected);
    return least;
}

static void fill_fields(uint32_t side, uint32_t address)
{
    memset(&fields, 0, sizeof fields);
    fields.source.surface.width = fields.output.width = side;
    fields.source.surface.height = fields.output.height = side;
    fields.source.mode = fields.source.enable = 1;
    fields.output.stride = 64;
    fields.output.address = address;
    fields.colour = 0xFF336699u;
    fields.source_factor = 2;
    fields.destination_factor = 3;
}

/* An engine with three clients and this many ready batches, the first of client 0. */
static void make_engine(int ready)
{
    uint32_t i;

    engine_size = sizeof engine;
    set_up();
    for (i = 0; i < 3; i++)
        wenditsal_open(engine, engine_size, COMMON + i * WINDOW, WINDOW, &value);
    fill_fields(4, COMMON);
    encode();
    while (ready-- > 0)
        submit();
    memcpy(saved, engine, sizeof engine);
}

/* ---- the measures */

static void record_parts(int ready)
{
    double other_length, broken, whole;

    make_engine(ready);
    whole = best(pending, 0);
    engine[0] = 1;
    broken = best(pending, 11);
    restore();
    engine_size = sizeof engine - 1;
    other_length = best(pending, 11);
    engine_size = sizeof engine;
    printf("%d ready: pending %.0f; bytes in %.0f, rules %.0f\n", ready, whole, broken - other_length, whole - broken);
}

static void accepted(int ready)
{
    double copy, opened, submitted, ran;

    make_engine(ready);
    copy = best(restore, 0);
    opened = best(restore_open, 0) - copy;
    submitted = ready < 8 ? best(restore_submit, 0) - copy : 0;
    ran = ready > 0 ? best(restore_run, 0) - copy : 0;
    printf("%d ready: open %.0f, submit of 80 bytes %.0f, run of a 4 x 4 fill %.0f\n", ready, opened, submitted, ran);
}

int main(void)
{
    double plain, refused;

    printf("nanoseconds a call (0 where there is no such call)\n");
    make_engine(0);
    plain = best(set_up, 0);
    refused = best(set_up_refused, 1);
    printf("set up %.0f, refused %.0f; bytes out %.0f\n", plain, refused, plain - refused);
    printf("encode of a task %.0f\n", best(encode, 0));
    record_parts(0);
    record_parts(4);
    record_parts(8);
    accepted(0);
    accepted(4);
    accepted(7);
    make_engine(0);
    printf("submit and run, nothing else ready %.0f\n", best(submit_run, 0));
    make_engine(7);
    printf("submit and run, seven others ready %.0f\n", best(submit_run, 0));
    return 0;
}
