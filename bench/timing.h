/* The clock, and the median of a row's times. */
#ifndef NICHELARDER_BENCH_TIMING_H
#define NICHELARDER_BENCH_TIMING_H
#include <stdlib.h>
#include <time.h>

enum { TIMES = 51 };

static inline double now(void) {
    struct timespec t;
    clock_gettime(CLOCK_MONOTONIC, &t);
    return (double)t.tv_sec + 1e-9 * (double)t.tv_nsec;
}

static inline int by_size(const void *a, const void *b) {
    double x = *(const double *)a, y = *(const double *)b;
    return (x > y) - (x < y);
}

/* Sorts the times. */
static inline double median(double *t) {
    qsort(t, TIMES, sizeof *t, by_size);
    return t[TIMES / 2];
}

#endif
