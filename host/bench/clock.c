#include "clock.h"

#include <time.h>

enum { ROUNDS = 7 };

/* Long enough to be told from the clock's own grain. */
static const double shortest_round = 0.02;

static double now(void)
{
    struct timespec time;
    clock_gettime(CLOCK_MONOTONIC, &time);
    return (double)time.tv_sec + 1e-9 * (double)time.tv_nsec;
}

static double time_runs(const struct contestant *contestant, const void *input, long runs)
{
    double start = now();
    for (long i = 0; i < runs; i++)
        contestant->run(input);
    return now() - start;
}

static void run_round(struct contestant *contestant, const void *input)
{
    long runs = 1;
    double seconds = time_runs(contestant, input, runs);
    while (seconds < shortest_round) {
        runs *= 2;
        seconds = time_runs(contestant, input, runs);
    }
    if (contestant->seconds == 0 || seconds / (double)runs < contestant->seconds)
        contestant->seconds = seconds / (double)runs;
}

void measure(struct contestant *contestants, size_t count, const void *input)
{
    for (size_t i = 0; i < count; i++)
        contestants[i].seconds = 0;
    for (int round = 0; round < ROUNDS; round++)
        for (size_t i = 0; i < count; i++)
            run_round(&contestants[i], input);
}
