/* Processor time, and the least of several measures. */
#ifndef BENCH_MEASURE_H
#define BENCH_MEASURE_H

#include <stdbool.h>
#include <stdint.h>
#include <stdio.h>
#include <stdlib.h>
#include <time.h>

/* Returns the nanoseconds that this process was given so far. */
static inline uint64_t processor_time(void)
{
    struct timespec now;
    clock_gettime(CLOCK_PROCESS_CPUTIME_ID, &now);
    return (uint64_t)now.tv_sec * 1000000000u + (uint64_t)now.tv_nsec;
}

static inline uint64_t least(uint64_t a, uint64_t b)
{
    return a < b ? a : b;
}

/* Ends the program unless a result is the one that is due. */
static inline void require(bool good)
{
    if (!good) {
        fprintf(stderr, "bench: a result is another one\n");
        exit(1);
    }
}

#endif
