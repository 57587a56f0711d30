/* Processor time of this thread, so that what else the machine does counts as little as can be. */
#ifndef BENCH_CLOCK_H
#define BENCH_CLOCK_H

/* The nanoseconds that one call of the work takes. */
double nanoseconds(void (*work)(const void *), const void *with);
/* Makes the lesser of both the least. */
void keep_least(double *least, double time);

#endif
