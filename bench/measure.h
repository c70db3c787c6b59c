// Times: the least of several rounds, in which the things compared take turns. What is taken is the process's own time on the processor, so that other
// work on the machine counts as little as can be; with none beside it this is the time on the clock.
#ifndef BENCH_MEASURE_H
#define BENCH_MEASURE_H
#include "c.h"

static inline double seconds(int clock)
{
    struct timespec t;
    clock_gettime(clock, &t);
    return t.seconds + t.nanoseconds / 1e9;
}

static inline double on_clock(void) { return seconds(1); }
static inline double on_processor(void) { return seconds(2); }

// What a round is timed by. Where rounds are short and many the clock is better: on a host whose processors are lent to others, a process's own time may come
// out too low.
#ifndef TIME
#define TIME on_processor
#endif

static inline void fail(const char *what)
{
    printf("\nWRONG: %s: the library and the C program differ. No figure of this run counts.\n", what);
    exit(1);
}

// What is done, with a word of its own for what it is done on.
typedef void work(void *on);

// The least time of each of `count` works over so many rounds, or until so many seconds are spent.
static inline void take_turns(work **works, void **on, int count, int rounds, double most, double *least)
{
    double end = on_clock() + most;
    for (int k = 0; k < count; k++) least[k] = 1e99;
    for (int r = 0; r < rounds; r++) {
        for (int k = 0; k < count; k++) {
            double t = TIME();
            works[k](on[k]);
            t = TIME() - t;
            if (t < least[k]) least[k] = t;
        }
        if (r >= 2 && on_clock() > end) break;
    }
}
#endif
