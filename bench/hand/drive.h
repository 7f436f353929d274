/* Times the instants of a node, in processor time: the least of so many passes as the second argument says, of so many instants as the first
   says. It prints nanoseconds an instant, and what a pass came to. */
#ifndef DRIVE_H
#define DRIVE_H
#include <inttypes.h>
#include <stdio.h>
#include <stdlib.h>
#include <time.h>

/* Makes so many instants, with all messages of each, and answers a number that depends on all that was shown and sent. */
static uint64_t instants(uint64_t count);

static double now(void)
{
    struct timespec t;
    clock_gettime(CLOCK_PROCESS_CPUTIME_ID, &t);
    return (double)t.tv_sec * 1e9 + (double)t.tv_nsec;
}

int main(int argc, char **argv)
{
    uint64_t count = argc > 1 ? strtoull(argv[1], NULL, 10) : 1, passes = argc > 2 ? strtoull(argv[2], NULL, 10) : 1, sum = 0;
    double least = 0;
    for (uint64_t i = 0; i < passes; i++) {
        double begun = now();
        sum = instants(count);
        double spent = now() - begun;
        least = i == 0 || spent < least ? spent : least;
    }
    printf("%.3f %" PRIu64 "\n", least / (double)count, sum);
    return 0;
}
#endif
