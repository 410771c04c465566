/* Numbers as if at random, the same in every run, for benchmarks and tests. */
#ifndef RANDOM_H
#define RANDOM_H

#include <stdint.h>

static uint32_t seed = 1;

/* One of 0 to n - 1. */
static inline uint32_t any(uint32_t n) {
    seed = seed * 1664525u + 1013904223u;
    return (seed >> 8) % n;
}

#endif
