/* What bench/world_bench.rt.in measures. */
#ifndef BENCH_WORLDS_H
#define BENCH_WORLDS_H

#define WORKS(OF) \
    OF(calls, world_bench_calls) \
    OF(lives, world_bench_lives)

#include "works.h"

#endif
