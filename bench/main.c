/* bench/run builds and runs it: main [ROUNDS [JOB]]. */
#include "costs.h"
#include "drawing.h"
#include "engine.h"
#include "pictures.h"

#include <stdio.h>
#include <stdlib.h>

int main(int count, char **words)
{
    int rounds = count > 1 ? atoi(words[1]) : 20;
    const char *wanted = count > 2 ? words[2] : "";

    if (rounds < 1) {
        fprintf(stderr, "main [ROUNDS [JOB]]: rounds from 1 on; of the jobs those whose names hold JOB\n");
        return 2;
    }
    engine_start();
    pictures_start();
    printf("pixman %s; least of %d rounds, in processor time\n", pixman_version_string(), rounds);
    bench_drawing(rounds, wanted);
    if (*wanted == '\0')
        bench_costs(rounds);
    return 0;
}
