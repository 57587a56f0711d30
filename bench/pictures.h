/* The bytes that every job starts from. */
#ifndef BENCH_PICTURES_H
#define BENCH_PICTURES_H

#include "job.h"

void pictures_start(void);
/* All of a memory as the job finds it. */
void set_memory(uint8_t *into, const struct job *job);
/* The source's bytes alone, and the output's. */
void set_source(uint8_t *into, const struct job *job, struct size size);
void set_output(uint8_t *into, const struct job *job, struct size size);

#endif
