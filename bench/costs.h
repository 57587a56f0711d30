/* What a task and a batch cost beside their pixels. */
#ifndef BENCH_COSTS_H
#define BENCH_COSTS_H

void bench_costs(int rounds);

#endif
