#define _POSIX_C_SOURCE 199309L

#include "clock.h"

#include <time.h>

static double now(void)
{
    struct timespec t;

    clock_gettime(CLOCK_THREAD_CPUTIME_ID, &t);
    return (double)t.tv_sec * 1e9 + (double)t.tv_nsec;
}

double nanoseconds(void (*work)(const void *), const void *with)
{
    double from = now();

    work(with);
    return now() - from;
}

void keep_least(double *least, double time)
{
    if (*least == 0 || time < *least)
        *least = time;
}
