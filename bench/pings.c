/* Pings over connections on loopback, one outstanding on each, and the time of each.
 *
 *     pings COUNT CONNECTIONS          answers them by a child process of its own, over epoll: each message of 51 bytes by a
 *                                      fixed reply
 *     pings COUNT CONNECTIONS PORT     sends them to the server that listens there
 *     pings COUNT CONNECTIONS PORT all
 *
 * Prints the wall-clock nanoseconds of one ping, the least of five rounds. COUNT pings make a round, over all connections. With a
 * fourth word it also prints how long a client of that round waited for its reply: the nanoseconds that half of the pings took at
 * most, and those that 99 of 100 took at most.
 */
#include <arpa/inet.h>
#include <netinet/in.h>
#include <netinet/tcp.h>
#include <stdio.h>
#include <stdlib.h>
#include <string.h>
#include <sys/epoll.h>
#include <sys/socket.h>
#include <sys/wait.h>
#include <time.h>
#include <unistd.h>

enum { PING = 51, REPLY = 38, EVENTS = 64, MOST = 1000, FILES = 1100 };

static const unsigned char ping[PING] =
    "\x33\0\0\0\x01\0\0\0\0\0\0\0\xdd\x07\0\0\0\0\0\0\0"
    "\x1e\0\0\0\x10" "ping\0\x01\0\0\0\x02" "$db\0\x06\0\0\0" "admin\0";

static const unsigned char reply[REPLY] =
    "\x26\0\0\0\x01\0\0\0\x01\0\0\0\xdd\x07\0\0\0\0\0\0\0"
    "\x11\0\0\0\x01" "ok\0\0\0\0\0\0\0\xf0\x3f";

static void fail(const char *what)
{
    perror(what);
    exit(1);
}

static void no_delay(int link)
{
    int on = 1;
    if (setsockopt(link, IPPROTO_TCP, TCP_NODELAY, &on, sizeof on) != 0)
        fail("setsockopt");
}

static void watch(int poll, int link)
{
    struct epoll_event event = {.events = EPOLLIN, .data.fd = link};
    if (epoll_ctl(poll, EPOLL_CTL_ADD, link, &event) != 0)
        fail("epoll_ctl");
}

/* Receives once, and returns how many messages of so many bytes that completes; or -1 at the end. No message is cut here, as long
 * as one is outstanding on a connection. */
static int take(int link, size_t size, unsigned char *last)
{
    unsigned char bytes[4096];
    ssize_t got = recv(link, bytes, sizeof bytes, 0);
    if (got <= 0)
        return -1;
    if ((size_t) got % size != 0) {
        fputs("a message is cut\n", stderr);
        exit(1);
    }
    memcpy(last, bytes + got - size, size);
    return (int) ((size_t) got / size);
}

/* Answers the pings of so many connections, until each has ended. */
static void serve(int listener, int connections)
{
    struct epoll_event events[EVENTS];
    unsigned char last[PING];
    int poll = epoll_create1(0), accepted = 0, ended = 0;
    if (poll < 0)
        fail("epoll_create1");
    watch(poll, listener);
    while (ended < connections) {
        int found = epoll_wait(poll, events, EVENTS, -1);
        for (int i = 0; i < found; i++) {
            int link = events[i].data.fd;
            if (link == listener) {
                int now = accepted < connections ? accept(listener, NULL, NULL) : -1;
                if (now >= 0) {
                    accepted++;
                    no_delay(now);
                    watch(poll, now);
                }
                continue;
            }
            int count = take(link, PING, last);
            if (count < 0) {
                close(link);
                ended++;
            }
            for (; count > 0; count--)
                if (send(link, reply, REPLY, MSG_NOSIGNAL) != REPLY)
                    fail("reply");
        }
    }
}

static struct sockaddr_in address_of(int port)
{
    struct sockaddr_in address;
    memset(&address, 0, sizeof address);
    address.sin_family = AF_INET;
    address.sin_port = htons((unsigned short) port);
    address.sin_addr.s_addr = htonl(INADDR_LOOPBACK);
    return address;
}

/* When the ping of a connection was sent, by the connection's file. */
static double began[FILES];

static double now(void)
{
    struct timespec time;
    clock_gettime(CLOCK_MONOTONIC, &time);
    return time.tv_sec * 1e9 + time.tv_nsec;
}

static void send_ping(int link)
{
    began[link] = now();
    if (send(link, ping, PING, 0) != PING)
        fail("ping");
}

/* Sends so many pings, the next on a connection once it has the reply to the one before. Notes how long each took. */
static double round_of(int poll, const int *links, int connections, long count, double *took)
{
    double from = now();
    struct epoll_event events[EVENTS];
    unsigned char last[REPLY];
    long sent = 0, got = 0;
    for (int i = 0; i < connections && sent < count; i++, sent++)
        send_ping(links[i]);
    while (got < count) {
        int found = epoll_wait(poll, events, EVENTS, -1);
        for (int i = 0; i < found; i++) {
            int link = events[i].data.fd;
            if (take(link, REPLY, last) != 1 || memcmp(last + 8, reply + 8, REPLY - 8) != 0) {
                fputs("the reply is another one\n", stderr);
                exit(1);
            }
            took[got++] = now() - began[link];
            if (sent < count) {
                sent++;
                send_ping(link);
            }
        }
    }
    return (now() - from) / count;
}

static int order(const void *one, const void *other)
{
    double a = *(const double *) one, b = *(const double *) other;
    return (a > b) - (a < b);
}

int main(int argc, char **argv)
{
    struct sockaddr_in address;
    socklen_t size = sizeof address;
    pid_t child = 0;
    double least = 0, *took, *best, *each;
    int links[MOST];
    long count = argc > 2 ? atol(argv[1]) : 0;
    int connections = argc > 2 ? atoi(argv[2]) : 0;
    if (count < 1 || connections < 1 || connections > MOST) {
        fputs("pings COUNT CONNECTIONS [PORT [all]]\n", stderr);
        return 2;
    }
    took = calloc((size_t) count, sizeof *took);
    best = calloc((size_t) count, sizeof *best);
    if (took == NULL || best == NULL)
        fail("calloc");
    address = address_of(argc > 3 ? atoi(argv[3]) : 0);
    if (argc == 3) {
        int listener = socket(AF_INET, SOCK_STREAM, 0);
        if (bind(listener, (struct sockaddr *) &address, size) != 0 || listen(listener, 1024) != 0)
            fail("listen");
        if (getsockname(listener, (struct sockaddr *) &address, &size) != 0)
            fail("getsockname");
        child = fork();
        if (child == 0) {
            serve(listener, connections);
            _exit(0);
        }
        close(listener);
    }
    /* Made behind the child, which would hold them open else. */
    int poll = epoll_create1(0);
    if (poll < 0)
        fail("epoll_create1");
    for (int i = 0; i < connections; i++) {
        links[i] = socket(AF_INET, SOCK_STREAM, 0);
        if (links[i] >= FILES || connect(links[i], (struct sockaddr *) &address, sizeof address) != 0)
            fail("connect");
        no_delay(links[i]);
        watch(poll, links[i]);
    }
    for (int i = 0; i < 5; i++) {
        double time = round_of(poll, links, connections, count, took);
        if (i == 0 || time < least) {
            least = time;
            each = best, best = took, took = each;
        }
    }
    for (int i = 0; i < connections; i++)
        close(links[i]);
    if (child > 0)
        waitpid(child, NULL, 0);
    qsort(best, (size_t) count, sizeof *best, order);
    if (argc > 4)
        printf("%.0f %.0f %.0f\n", least, best[count / 2], best[count - 1 - count / 100]);
    else
        printf("%.0f\n", least);
    return 0;
}
