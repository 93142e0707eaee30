/* A relay over epoll, which copies the bytes of each connection to a port of this machine and back: what the proxy is compared with.
 *
 *     relay PORT     listens at a port of its own, which it prints, and passes connections to PORT
 *
 * A signal ends it. A connection that fails is closed on both sides.
 */
#define _GNU_SOURCE
#include <arpa/inet.h>
#include <errno.h>
#include <netinet/in.h>
#include <netinet/tcp.h>
#include <stdio.h>
#include <stdlib.h>
#include <sys/epoll.h>
#include <sys/socket.h>
#include <unistd.h>

enum { ROOM = 65536, EVENTS = 64, MOST = 4096 };

/* One way: what came over one socket and wasn't sent over the other yet. */
struct way {
    int from, to;
    size_t start, end;
    enum { OPEN, ENDING, ENDED } stage;
    char bytes[ROOM];
};

static struct way *ways[MOST];
static int poller;

static void watch(int socket, uint32_t events)
{
    struct epoll_event event = {.events = events, .data.fd = socket};
    int one = 1;
    setsockopt(socket, IPPROTO_TCP, TCP_NODELAY, &one, sizeof one);
    epoll_ctl(poller, EPOLL_CTL_ADD, socket, &event);
}

/* Passes what can be passed. Returns false if a socket failed. */
static int pass(struct way *way)
{
    for (;;) {
        ssize_t count;
        while (way->start < way->end) {
            count = send(way->to, way->bytes + way->start, way->end - way->start, MSG_DONTWAIT | MSG_NOSIGNAL);
            if (count < 0)
                return errno == EAGAIN;
            way->start += (size_t)count;
        }
        if (way->stage == ENDING) {
            shutdown(way->to, SHUT_WR);
            way->stage = ENDED;
        }
        if (way->stage == ENDED)
            return 1;
        count = recv(way->from, way->bytes, ROOM, MSG_DONTWAIT);
        if (count < 0)
            return errno == EAGAIN;
        way->start = 0;
        way->end = (size_t)count;
        if (count == 0)
            way->stage = ENDING;
    }
}

static void turn(int socket)
{
    struct way *there = ways[socket], *back;
    if (there == NULL)
        return;
    back = ways[there->to];
    if (pass(there) && pass(back) && (there->stage != ENDED || back->stage != ENDED))
        return;
    ways[there->from] = ways[back->from] = NULL;
    close(there->from);
    close(back->from);
    free(there);
    free(back);
}

static void begin(int listener, const struct sockaddr_in *upstream)
{
    int near = accept4(listener, NULL, NULL, SOCK_NONBLOCK), far = socket(AF_INET, SOCK_STREAM | SOCK_NONBLOCK, 0);
    struct way *there = calloc(1, sizeof *there), *back = calloc(1, sizeof *back);
    if (near < 0 || far < 0 || near >= MOST || far >= MOST || there == NULL || back == NULL)
        exit(1);
    connect(far, (const struct sockaddr *)upstream, sizeof *upstream);
    there->from = back->to = near;
    there->to = back->from = far;
    ways[near] = there;
    ways[far] = back;
    watch(near, EPOLLIN | EPOLLOUT | EPOLLET);
    watch(far, EPOLLIN | EPOLLOUT | EPOLLET);
}

int main(int argc, char **argv)
{
    struct sockaddr_in own = {.sin_family = AF_INET, .sin_addr.s_addr = htonl(INADDR_LOOPBACK)}, upstream = own;
    socklen_t size = sizeof own;
    int listener = socket(AF_INET, SOCK_STREAM, 0);
    upstream.sin_port = htons((uint16_t)(argc > 1 ? strtoul(argv[1], NULL, 10) : 0));
    if (bind(listener, (struct sockaddr *)&own, sizeof own) != 0 || listen(listener, 1024) != 0
        || getsockname(listener, (struct sockaddr *)&own, &size) != 0)
        return 1;
    printf("listening 127.0.0.1:%d\n", ntohs(own.sin_port));
    fflush(stdout);
    poller = epoll_create1(0);
    watch(listener, EPOLLIN);
    for (;;) {
        struct epoll_event events[EVENTS];
        int count = epoll_wait(poller, events, EVENTS, -1);
        for (int i = 0; i < count; i++) {
            if (events[i].data.fd == listener)
                begin(listener, &upstream);
            else
                turn(events[i].data.fd);
        }
    }
}
