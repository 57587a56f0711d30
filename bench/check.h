/* Pixels are compared before anything is timed. */
#ifndef BENCH_CHECK_H
#define BENCH_CHECK_H

#include "job.h"

/* Draws the job by the engine, by the plain definition and by pixman. Ends the program if two of them differ by more than the job allows. */
void check_job(const struct job *job, struct size size);

#endif
