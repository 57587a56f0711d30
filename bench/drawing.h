/* The table of drawing: every job at every size, beside pixman, memset and memcpy. */
#ifndef BENCH_DRAWING_H
#define BENCH_DRAWING_H

/* Compares the pixels of all jobs whose names hold this text, then times them in so many rounds and prints the table. */
void bench_drawing(int rounds, const char *wanted);

#endif
