/* What bench/peer_bench.rt.in measures. */
#ifndef BENCH_PEERS_H
#define BENCH_PEERS_H

#define WORKS(OF) \
    OF(answer, peer_bench_answer) \
    OF(apart, peer_bench_apart) \
    OF(copied, peer_bench_copied) \
    OF(copy, peer_bench_copy) \
    OF(first, peer_bench_first) \
    OF(latest, peer_bench_latest) \
    OF(link, peer_bench_link) \
    OF(run, peer_bench_run) \
    OF(serve, peer_bench_serve) \
    OF(shift, peer_bench_shift)

#include "works.h"

#endif
