#define _POSIX_C_SOURCE 200809L
#include "clock.h"
#include <time.h>

#define READINGS 1000
#define TRIALS 50

// Never put into its caller, so that a reading costs the same everywhere.
__attribute__((noinline)) double now(void)
{
    struct timespec t;
    clock_gettime(CLOCK_MONOTONIC, &t);
    return (double)t.tv_sec * 1e9 + (double)t.tv_nsec;
}

// The time of many readings by their number, since a clock may go in steps that are no shorter than a reading.
static double mean_cost(void)
{
    double begin = now();
    for (int n = 1; n < READINGS; n++)
        now();
    return (now() - begin) / READINGS;
}

// The least of some trials: the one with the least disturbance.
double clock_cost(void)
{
    double least = mean_cost();
    for (int n = 1; n < TRIALS; n++) {
        double cost = mean_cost();
        least = cost < least ? cost : least;
    }
    return least;
}
