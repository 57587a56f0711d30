/*
 * The jobs. A rule's factors are those of docs/REGISTERS.md: 0 zero, 1 one, 2 source alpha, 3 255 - source alpha, 4 destination alpha, 5 255 - it.
 * Where nothing else stands, source and output are ARGB8888, blending is off, and pixman composites the source's pixels to the same pixels.
 */
#include "job.h"

#define RULE(source, destination) .blend = 1, .source_factor = source, .destination_factor = destination
#define FORMATS(source, output) .source_format = WENDITSAL_##source, .output_format = WENDITSAL_##output
#define BESIDE(name) .operator = PIXMAN_OP_##name

const struct job jobs[] = {
    {"fill 8888", .colour = 1, .way = FILL, .bound = MEMSET, .aim_16x16 = 1.2, .aim_800x60 = 1.1},
    {"fill 888", FORMATS(ARGB8888, RGB888), .colour = 1, .way = SOLID, BESIDE(SRC), .bound = MEMSET, .aim_16x16 = 1.2, .aim_800x60 = 1.1},
    {"fill 565", FORMATS(ARGB8888, RGB565), .colour = 1, .way = FILL, .bound = MEMSET, .aim_16x16 = 1.2, .aim_800x60 = 1.1},

    {"copy 8888", BESIDE(SRC), .bound = MEMCPY, .aim_16x16 = 1.2, .aim_800x60 = 1.1},
    {"copy 888", FORMATS(RGB888, RGB888), BESIDE(SRC), .bound = MEMCPY, .aim_16x16 = 1.2, .aim_800x60 = 1.1},
    {"copy 565", FORMATS(RGB565, RGB565), BESIDE(SRC), .bound = MEMCPY, .aim_16x16 = 1.2, .aim_800x60 = 1.1},
    {"copy 8888, V flip", .flip_v = 1, BESIDE(SRC), .bound = MEMCPY, .aim_800x60 = 1.5},
    {"copy 888, V flip", FORMATS(RGB888, RGB888), .flip_v = 1, BESIDE(SRC), .bound = MEMCPY, .aim_800x60 = 1.5},
    {"copy 565, V flip", FORMATS(RGB565, RGB565), .flip_v = 1, BESIDE(SRC), .bound = MEMCPY, .aim_800x60 = 1.5},
    {"copy 8888, H flip", .flip_h = 1, BESIDE(SRC), .bound = MEMCPY, .aim_800x60 = 1.0},
    {"copy 8888, turn 1", .turns = 1, BESIDE(SRC), .bound = MEMCPY, .aim_800x60 = 1.0},
    {"copy 8888, turn 2", .turns = 2, BESIDE(SRC), .bound = MEMCPY, .aim_800x60 = 1.0},
    {"copy 8888, turn 3", .turns = 3, BESIDE(SRC), .bound = MEMCPY, .aim_800x60 = 1.0},

    {"565 to 8888", FORMATS(RGB565, ARGB8888), BESIDE(SRC), .aim_800x60 = 1.2},
    {"888 to 8888", FORMATS(RGB888, ARGB8888), BESIDE(SRC), .aim_800x60 = 1.2},
    {"8888 to 888", FORMATS(ARGB8888, RGB888), BESIDE(SRC), .aim_800x60 = 1.2},
    {"8888 to 565", FORMATS(ARGB8888, RGB565), BESIDE(SRC), .aim_800x60 = 2.2},

    {"SRC_OVER, random", RULE(1, 3), BESIDE(OVER), .aim_16x16 = 1.5, .aim_800x60 = 1.0},
    {"SRC_OVER, page-like", RULE(1, 3), .page_like = 1, BESIDE(OVER), .aim_16x16 = 1.5, .aim_800x60 = 1.2},
    {"tint: colour SRC_OVER", RULE(1, 3), .colour = 1, .way = SOLID, BESIDE(OVER), .aim_16x16 = 1.6, .aim_800x60 = 1.25},
    {"SRC_OVER, global alpha", RULE(1, 3), .alpha_mode = 1, .way = MASKED_OPAQUE, BESIDE(OVER), .agreement = ANOTHER, .aim_800x60 = 1.4},
    {"SRC_OVER, mixed alpha", RULE(1, 3), .alpha_mode = 2, .way = MASKED, BESIDE(OVER), .agreement = ANOTHER, .aim_800x60 = 1.4},
    {"NONE, global alpha", RULE(2, 3), .alpha_mode = 1, .way = MASKED_OPAQUE, BESIDE(OVER), .agreement = COLOURS_ONE_APART, .aim_800x60 = 1.4},
    {"SRC_OVER on 565, random", FORMATS(ARGB8888, RGB565), RULE(1, 3), BESIDE(OVER), .aim_800x60 = 1.2},
    {"SRC_OVER on 565, page-like", FORMATS(ARGB8888, RGB565), RULE(1, 3), .page_like = 1, BESIDE(OVER), .aim_800x60 = 1.2},
    {"SRC_OVER on 888, random", FORMATS(ARGB8888, RGB888), RULE(1, 3), BESIDE(OVER), .aim_800x60 = 1.2},
    {"SRC_OVER on 888, page-like", FORMATS(ARGB8888, RGB888), RULE(1, 3), .page_like = 1, BESIDE(OVER), .aim_800x60 = 1.2},

    {"SRC_ATOP", RULE(4, 3), BESIDE(ATOP), .agreement = ONE_APART, .aim_800x60 = 1.2},
    {"XOR", RULE(5, 3), BESIDE(XOR), .agreement = ONE_APART, .aim_800x60 = 1.2},
    {"ADD", RULE(1, 1), BESIDE(ADD), .aim_800x60 = 1.6},
    {"NONE, random (OVER)", RULE(2, 3), BESIDE(OVER), .agreement = ANOTHER, .aim_800x60 = 2.5},
    {"NONE, page-like (OVER)", RULE(2, 3), .page_like = 1, BESIDE(OVER), .agreement = ANOTHER, .aim_800x60 = 2.5},
    {"DST_OVER", RULE(5, 1), BESIDE(OVER_REVERSE), .aim_800x60 = 2.5},
    {"SRC_IN", RULE(4, 0), BESIDE(IN), .aim_800x60 = 2.5},
    {"DST_IN", RULE(0, 2), BESIDE(IN_REVERSE), .aim_800x60 = 2.5},
    {"SRC_OUT", RULE(5, 0), BESIDE(OUT), .aim_800x60 = 2.5},
    {"DST_OUT", RULE(0, 3), BESIDE(OUT_REVERSE), .aim_800x60 = 2.5},
    {"DST_ATOP", RULE(5, 2), BESIDE(ATOP_REVERSE), .agreement = ONE_APART, .aim_800x60 = 2.5},
    {"CLEAR", RULE(0, 0), BESIDE(CLEAR), .bound = MEMSET, .aim_800x60 = 2.5},
    {"SRC", RULE(1, 0), BESIDE(SRC), .bound = MEMCPY, .aim_800x60 = 2.5},
    /* pixman returns at once: nothing to aim at */
    {"DST", RULE(0, 1), BESIDE(DST)},
};

const int job_count = (int)(sizeof jobs / sizeof *jobs);
