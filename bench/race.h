/* Random numbers, a clock, and two programs timed in turn. */
#ifndef RACE_H
#define RACE_H
#include <stdint.h>
#include <stdio.h>
#include <stdlib.h>
#include <time.h>

enum { TURNS = 25 };

static uint64_t state = 88172645463325252u;
static int64_t pick(int64_t low, int64_t high)
{
    state ^= state << 13, state ^= state >> 7, state ^= state << 17;
    return low + (int64_t)(state % (uint64_t)(high - low + 1));
}

static double now(void)
{
    struct timespec t;
    clock_gettime(CLOCK_MONOTONIC, &t);
    return 1e9 * (double)t.tv_sec + (double)t.tv_nsec;
}

static void fail(const char *what) { fprintf(stderr, "bench: %s\n", what); exit(1); }

/* the least time of some turns, the two taken in turn */
#define RACE(one, two, first, second)                                     \
    for (int t = 0; t < TURNS; t++) {                                     \
        double a = now(); one; double b = now(); two; double c = now();   \
        if (t == 0 || b - a < first) first = b - a;                       \
        if (t == 0 || c - b < second) second = c - b;                     \
    }

#endif
