/*
 * A job is one task of the engine, with what pixman is asked for beside it and how far the two may differ. bench/README.md says how it is measured.
 */
#ifndef BENCH_JOB_H
#define BENCH_JOB_H

#include "wenditsal.h"

#include <pixman.h>

/* Where pictures lie in memory: the source from 0 on, the output in the upper half, where it is also the destination. */
enum { MEMORY = 16777216, SOURCE = 0, OUTPUT = 8388608, COLOUR = 0x70403412, GLOBAL_ALPHA = 0x90 };

struct size {
    int width, height;
};

struct place {
    int x, y;
};

/* How pixman is asked for the same picture. */
enum way {
    COMPOSITE,      /* the source's pixels, by an operator */
    FILL,           /* pixman_fill */
    SOLID,          /* a solid image, by an operator */
    MASKED,         /* the source's pixels through a mask of the global alpha */
    MASKED_OPAQUE   /* the same, with every pixel's own alpha taken for 255 */
};

/* How far pixman's channels may lie from the engine's. */
enum agreement {
    EQUAL,
    ONE_APART,          /* pixman rounds each of two products, the engine their sum */
    COLOURS_ONE_APART,  /* and alpha is another's */
    ANOTHER             /* pixman has no such operation: the nearest one is timed, and its pixels are not looked at */
};

/* What bounds the job from below: the C library on as many bytes. */
enum bound { NONE_KNOWN, MEMSET, MEMCPY };

struct job {
    const char *name;
    /* the task */
    uint32_t source_format, output_format;
    uint32_t colour, flip_h, flip_v, turns;
    uint32_t blend, source_factor, destination_factor, alpha_mode;
    int page_like;
    /* pixman's side */
    enum way way;
    pixman_op_t operator;
    enum agreement agreement;
    enum bound bound;
    /* the ratio to pixman's time that is aimed at, 0 where there is none */
    double aim_16x16, aim_800x60;
};

extern const struct job jobs[];
extern const int job_count;

int pixel_bytes(uint32_t format);
int stride_of(int width, uint32_t format);
/* The output's size for a source of this one. */
struct size output_size(const struct job *job, struct size source);
/* Which source pixel comes to this place of the output. */
struct place source_place(const struct job *job, struct size source, int x, int y);

#endif
