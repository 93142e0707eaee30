/* Refuses to watch descriptors: of the calls that add one to what epoll watches, those from the number on, from 1, that stands in the
   environment as UNWATCHED_FROM, as many as UNWATCHED_COUNT, fail as where no room is left. Loaded by LD_PRELOAD. */
#define _GNU_SOURCE
#include <dlfcn.h>
#include <errno.h>
#include <stdlib.h>
#include <sys/epoll.h>

int epoll_ctl(int epoll, int what, int descriptor, struct epoll_event *event)
{
    static int (*next)(int, int, int, struct epoll_event *);
    static long added, from, count;
    if (!next) {
        next = dlsym(RTLD_NEXT, "epoll_ctl");
        from = atol(getenv("UNWATCHED_FROM"));
        count = atol(getenv("UNWATCHED_COUNT"));
    }
    if (what == EPOLL_CTL_ADD && ++added >= from && added < from + count) {
        errno = ENOSPC;
        return -1;
    }
    return next(epoll, what, descriptor, event);
}
