/* Serves many connections at once in one thread, each by a server of its own, and answers each request with its own body.
 *
 *     serve [CONNECTIONS]    writes the port of this machine that it listens at
 *
 * A request may have 16 MiB. It ends when so many connections have ended, or when something comes on the standard input. A
 * connection whose bytes are at fault is closed once the answers before these are sent, and the fault is told on the standard
 * error. The status is 3 where the network failed, and 4 where there is no memory. */
#include <arpa/inet.h>
#include <errno.h>
#include <fcntl.h>
#include <inttypes.h>
#include <netinet/in.h>
#include <stdio.h>
#include <stdlib.h>
#include <string.h>
#include <sys/epoll.h>
#include <sys/socket.h>
#include <unistd.h>

#include "lughemra.h"

#define LIMIT (UINT32_C(1) << 24)

struct connection {
    int link;
    struct lughemra_core core;
    /* Nothing more is taken, and the connection is closed once what waits is sent. */
    bool ends;
    struct connection *next;
};

static struct connection *connections;
/* No more files can be opened, so that nothing is accepted until a connection ends. */
static bool full;
static uint8_t piece[1 << 16], request[LIMIT];

static void stop(int status, const char *why)
{
    fprintf(stderr, "serve: %s\n", why);
    exit(status);
}

/* Tells why a connection ends. Returns false. */
static bool refuse(const char *why, struct lughemra_fault fault)
{
    fprintf(stderr, "serve: a connection was closed: %s", why);
    if (fault.number != 0)
        fprintf(stderr, ", %s at %zu", lughemra_message_fault_name(fault.number), fault.offset);
    fprintf(stderr, "\n");
    return false;
}

/* Answers the request that waits with its own body. Returns false if the connection is to end. */
static bool answer(struct connection *c)
{
    struct lughemra_request told = lughemra_server_request(&c->core, 0, request, sizeof request);
    struct lughemra_message_parts parts = lughemra_message_parts(request, told.length, LIMIT);
    struct lughemra_section body = lughemra_section(request, told.length, parts.sections);
    struct lughemra_answer_given given = {told.refusal, {0, 0}, {0, 0}};
    if (told.refusal == 0)
        given = lughemra_server_answer(&c->core, 0, request + body.documents.offset, body.documents.length);
    return given.refusal == 0 || refuse(lughemra_core_refusal_name(given.refusal), given.fault);
}

/* Takes what came, and answers each request as it becomes whole. Returns false if the connection is to end. */
static bool receive_some(struct connection *c)
{
    const struct lughemra_fault none = {0, 0};
    ssize_t came = recv(c->link, piece, sizeof piece, MSG_DONTWAIT);
    size_t at = 0;
    if (came < 0)
        return errno == EAGAIN || errno == EINTR;
    while (at < (size_t)came) {
        struct lughemra_server_fed fed = lughemra_server_feed(&c->core, piece + at, (size_t)came - at);
        if (fed.refusal != 0)
            return refuse(lughemra_core_refusal_name(fed.refusal), fed.state.fault);
        if (fed.state.cause != LUGHEMRA_OPEN)
            return refuse(lughemra_server_cause_name(fed.state.cause), fed.state.fault);
        if (fed.state.waiting > 0 && !answer(c))
            return false;
        at += fed.taken;
    }
    if (came > 0)
        return true;
    lughemra_server_end(&c->core);
    if (lughemra_server_state(&c->core).cause == LUGHEMRA_CLOSED_BY_END_INSIDE)
        refuse("EndedInside", none);
    return false;
}

/* Returns whether bytes wait to be sent. */
static bool has_more(struct connection *c)
{
    return lughemra_server_output(&c->core, NULL, 0).waiting > 0;
}

/* Sends what waits, as much as the socket takes. Returns false if the connection failed. */
static bool send_some(struct connection *c)
{
    struct lughemra_output output;
    while ((output = lughemra_server_output(&c->core, piece, sizeof piece)).copied > 0) {
        ssize_t sent = send(c->link, piece, output.copied, MSG_DONTWAIT | MSG_NOSIGNAL);
        if (sent < 0)
            return errno == EAGAIN || errno == EINTR;
        lughemra_server_sent(&c->core, (size_t)sent);
    }
    return true;
}

static void end(struct connection *c)
{
    struct connection **at = &connections;
    while (*at != c)
        at = &(*at)->next;
    *at = c->next;
    close(c->link);
    lughemra_free(&c->core);
    free(c);
}

/* Registers what a connection waits for: to send where bytes wait, and only then to receive more. */
static bool await(int events, int how, struct connection *c)
{
    struct epoll_event event = {0};
    event.events = has_more(c) ? EPOLLOUT : EPOLLIN;
    event.data.ptr = c;
    return epoll_ctl(events, how, c->link, &event) == 0;
}

/* Accepts a connection. Where no file can be opened for it, the listener is waited for again once another connection has ended. */
static void begin(int events, int listener)
{
    int link = accept(listener, NULL, NULL);
    struct connection *c;
    if (link < 0) {
        full = errno == EMFILE || errno == ENFILE;
        if (full && (connections == NULL || epoll_ctl(events, EPOLL_CTL_DEL, listener, NULL) != 0))
            stop(3, strerror(errno));
        return;
    }
    c = calloc(1, sizeof *c);
    if (c == NULL || lughemra_server_new(&c->core, 100, LIMIT) != 0)
        stop(4, "no memory for a server");
    c->link = link;
    c->next = connections;
    connections = c;
    if (!await(events, EPOLL_CTL_ADD, c))
        stop(3, strerror(errno));
}

/* Goes on with a connection that is ready. Returns false if it ended. */
static bool go_on(int events, struct connection *c)
{
    bool works = send_some(c);
    if (works && !has_more(c) && !c->ends) {
        c->ends = !receive_some(c);
        works = send_some(c);
    }
    if (works && (has_more(c) || !c->ends) && await(events, EPOLL_CTL_MOD, c))
        return true;
    end(c);
    return false;
}

static int listen_at_any_port(void)
{
    struct sockaddr_in address = {0};
    socklen_t size = sizeof address;
    int listener = socket(AF_INET, SOCK_STREAM, 0);
    address.sin_family = AF_INET;
    address.sin_addr.s_addr = htonl(INADDR_LOOPBACK);
    if (listener < 0 || bind(listener, (struct sockaddr *)&address, sizeof address) != 0 || listen(listener, 100) != 0
        || fcntl(listener, F_SETFL, O_NONBLOCK) != 0 || getsockname(listener, (struct sockaddr *)&address, &size) != 0)
        stop(3, strerror(errno));
    printf("%u\n", (unsigned)ntohs(address.sin_port));
    fflush(stdout);
    return listener;
}

int main(int argc, char **argv)
{
    size_t left = argc > 1 ? strtoul(argv[1], NULL, 10) : SIZE_MAX;
    int events = epoll_create1(0), listener = listen_at_any_port();
    struct epoll_event accepts = {0}, ends = {0}, ready;
    accepts.events = ends.events = EPOLLIN;
    accepts.data.ptr = &accepts;
    ends.data.ptr = &ends;
    if (events < 0 || epoll_ctl(events, EPOLL_CTL_ADD, listener, &accepts) != 0)
        stop(3, strerror(errno));
    /* A file isn't waited for. */
    epoll_ctl(events, EPOLL_CTL_ADD, STDIN_FILENO, &ends);
    while (left > 0) {
        if (epoll_wait(events, &ready, 1, -1) < 1)
            continue;
        if (ready.data.ptr == &ends)
            break;
        if (ready.data.ptr == &accepts)
            begin(events, listener);
        else if (!go_on(events, ready.data.ptr)) {
            left--;
            if (full && epoll_ctl(events, EPOLL_CTL_ADD, listener, &accepts) != 0)
                stop(3, strerror(errno));
            full = false;
        }
    }
    while (connections != NULL)
        end(connections);
    close(listener);
    close(events);
    return 0;
}
