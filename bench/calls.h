/* What bench/calls.c measures, and what it is compared with. */
#ifndef BENCH_CALLS_H
#define BENCH_CALLS_H

#define WORKS(OF) \
    OF(copied, peer_bench_copied) \
    OF(handle, calls_by_handle) \
    OF(latest, peer_bench_latest)

#include "works.h"

#endif
