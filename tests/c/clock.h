/* What the measures of speed share: who compiled the plain C, and the time. Whoever includes this defines _GNU_SOURCE first. */
#ifndef CLOCK_H
#define CLOCK_H

#include <time.h>

#ifdef __clang__
#define COMPILER __VERSION__
#else
#define COMPILER "gcc " __VERSION__
#endif

/* In nanoseconds. */
static inline double now(void) {
    struct timespec t;
    clock_gettime(CLOCK_MONOTONIC, &t);
    return (double)t.tv_sec * 1e9 + (double)t.tv_nsec;
}

#endif
