/* Makes calls of a client over a socket, as many at once as the window allows, and matches each reply with its call. The connection
 * is one that a pool lends. Where it is lost, the calls that have no reply are made again over the next one.
 *
 *     ping PORT [CALLS [WINDOW [CUT]]]    connects to that port of this machine, and makes 1000 calls, all at once
 *
 * The body of call n is {"ping": n}, and a server is to answer with that body, in any order, as examples/echo.c does. With CUT it
 * hangs up itself after so many replies, once. The status is 1 where a reply isn't that of its call, 3 where the network failed,
 * and 4 where there is no memory. */
#include <arpa/inet.h>
#include <errno.h>
#include <inttypes.h>
#include <netinet/in.h>
#include <poll.h>
#include <stdio.h>
#include <stdlib.h>
#include <string.h>
#include <sys/socket.h>
#include <unistd.h>

#include "lughemra.h"

/* What belongs to a connection of the pool. */
struct connection {
    int link;
    struct lughemra_core client;
    /* The next number to look at, of those that may want a call. */
    size_t next;
    /* Of each call of the client, the number in its body. */
    size_t *numbers;
};

static size_t calls, left, cut, most, wrong;
/* Of each number, whether its reply came. */
static bool *answered;

static void stop(int status, const char *why)
{
    fprintf(stderr, "ping: %s\n", why);
    exit(status);
}

static void open_connection(struct connection *at, uint16_t port, size_t window)
{
    struct sockaddr_in address = {0};
    address.sin_family = AF_INET;
    address.sin_port = htons(port);
    address.sin_addr.s_addr = htonl(INADDR_LOOPBACK);
    at->link = socket(AF_INET, SOCK_STREAM, 0);
    if (at->link < 0 || connect(at->link, (struct sockaddr *)&address, sizeof address) != 0)
        stop(3, strerror(errno));
    at->next = 0;
    at->numbers = malloc((calls + 1) * sizeof *at->numbers);
    if (at->numbers == NULL || lughemra_client_new(&at->client, 1, window, LUGHEMRA_MAX_LIMIT) != 0)
        stop(4, "no client");
}

static void close_connection(struct connection *at)
{
    close(at->link);
    free(at->numbers);
    if (lughemra_free(&at->client) != 0 || lughemra_free(&at->client) != LUGHEMRA_NO_CORE)
        stop(1, "the client isn't freed once");
}

/* Makes a call with this number. Returns false if the window is full. */
static bool call(struct connection *at, size_t number)
{
    uint8_t body[64];
    struct lughemra_builder builder = lughemra_build();
    struct lughemra_call_made made;
    struct lughemra_built built;
    lughemra_append_integer(body, sizeof body, &builder, "ping", 4, LUGHEMRA_INT64, (int64_t)number);
    built = lughemra_finish(body, sizeof body, &builder);
    made = lughemra_client_call(&at->client, body, built.wanted, NULL, 0);
    if (made.refusal == LUGHEMRA_WINDOW_FULL)
        return false;
    if (made.refusal != 0)
        stop(made.refusal == LUGHEMRA_NO_MEMORY ? 4 : 3, lughemra_core_refusal_name(made.refusal));
    at->numbers[made.number] = number;
    return true;
}

/* Takes the reply that is ready, first into a room that is too short, and compares it with its call. */
static void take_reply(struct connection *at)
{
    struct lughemra_reply reply = lughemra_client_reply(&at->client, NULL, 0);
    uint8_t *message = malloc(reply.length);
    struct lughemra_section body;
    struct lughemra_element element;
    size_t number;
    if (message == NULL || reply.refusal != LUGHEMRA_NO_ROOM)
        stop(4, lughemra_core_refusal_name(reply.refusal));
    reply = lughemra_client_reply(&at->client, message, reply.length);
    if (reply.refusal != 0)
        stop(4, lughemra_core_refusal_name(reply.refusal));
    number = at->numbers[reply.call];
    body = lughemra_section(message, reply.length, lughemra_message_parts(message, reply.length, LUGHEMRA_MAX_LIMIT).sections);
    if (!lughemra_get(message + body.documents.offset, body.documents.length, "ping", 4, &element)
        || element.kind != LUGHEMRA_INT64 || (uint64_t)element.value.integer != number || !reply.last || answered[number])
        wrong++;
    answered[number] = true;
    left--;
    free(message);
    lughemra_client_release(&at->client);
}

/* Sends what waits, as much as the socket takes. */
static void send_some(struct connection *at)
{
    static uint8_t piece[1 << 16];
    struct lughemra_output output = lughemra_client_output(&at->client, piece, sizeof piece);
    ssize_t sent = send(at->link, piece, output.copied, MSG_DONTWAIT | MSG_NOSIGNAL);
    if (sent > 0)
        lughemra_client_sent(&at->client, (size_t)sent);
    else if (sent < 0 && errno != EAGAIN)
        lughemra_client_end(&at->client);
}

/* Takes what came, and the replies in it. */
static void receive_some(struct connection *at)
{
    static uint8_t piece[1 << 16];
    ssize_t came = recv(at->link, piece, sizeof piece, MSG_DONTWAIT);
    size_t taken = 0;
    if (came == 0 || (came < 0 && errno != EAGAIN))
        lughemra_client_end(&at->client);
    while (came > 0 && taken < (size_t)came) {
        struct lughemra_fed fed = lughemra_client_feed(&at->client, piece + taken, (size_t)came - taken);
        if (fed.refusal != 0)
            stop(4, lughemra_core_refusal_name(fed.refusal));
        if (fed.state.cause != LUGHEMRA_OPEN)
            return;
        taken += fed.taken;
        if (fed.state.ready) {
            take_reply(at);
            if (cut > 0 && --cut == 0)
                lughemra_client_end(&at->client);
        }
    }
}

/* Makes the calls that are left, and takes replies, until all have one or the connection is lost. */
static void exchange(struct connection *at)
{
    while (left > 0 && lughemra_client_state(&at->client).cause == LUGHEMRA_OPEN) {
        struct pollfd wait = {at->link, POLLIN, 0};
        size_t outstanding;
        int ready;
        while (at->next < calls && (answered[at->next] || call(at, at->next)))
            at->next++;
        outstanding = lughemra_client_outstanding(&at->client).count;
        most = outstanding > most ? outstanding : most;
        if (lughemra_client_output(&at->client, NULL, 0).waiting > 0)
            wait.events |= POLLOUT;
        ready = poll(&wait, 1, 120000);
        if (ready < 0 && errno == EINTR)
            continue;
        if (ready <= 0)
            stop(3, ready < 0 ? strerror(errno) : "nothing comes");
        if (wait.revents & POLLOUT)
            send_some(at);
        if (wait.revents & (POLLIN | POLLHUP | POLLERR))
            receive_some(at);
    }
}

/* Tells why a connection is lost, and how many of its calls are lost with it. */
static void tell_loss(struct connection *at, uint64_t id)
{
    uint32_t cause = lughemra_client_state(&at->client).cause;
    printf("connection %" PRIu64 ": %s, %zu calls are lost\n", id, lughemra_client_cause_name(cause),
           lughemra_client_outstanding(&at->client).count);
    if (cause != LUGHEMRA_CLOSED_BY_END && cause != LUGHEMRA_CLOSED_BY_END_INSIDE)
        stop(1, "the server sends other than replies");
}

int main(int argc, char **argv)
{
    uint16_t port = argc > 1 ? (uint16_t)strtoul(argv[1], NULL, 10) : 0;
    size_t window = argc > 3 ? strtoul(argv[3], NULL, 10) : 1000;
    struct lughemra_core pool = {NULL, false};
    struct connection at = {0};
    calls = left = argc > 2 ? strtoul(argv[2], NULL, 10) : 1000;
    cut = argc > 4 ? strtoul(argv[4], NULL, 10) : 0;
    answered = calloc(calls + 1, sizeof *answered);
    if (answered == NULL || lughemra_pool_new(&pool, 1) != 0)
        stop(4, "no pool");
    do {
        struct lughemra_checked_out lent = lughemra_pool_check_out(&pool);
        size_t before = left;
        bool healthy;
        if (lent.refusal != 0)
            stop(3, lughemra_core_refusal_name(lent.refusal));
        if (lent.is_new)
            open_connection(&at, port, window);
        exchange(&at);
        healthy = lughemra_client_state(&at.client).cause == LUGHEMRA_OPEN;
        if (!healthy)
            tell_loss(&at, lent.id);
        if (!lughemra_pool_check_in(&pool, lent.id, healthy).kept)
            close_connection(&at);
        if (!healthy && left == before)
            stop(3, "no reply comes");
    } while (left > 0);
    if (at.client.there)
        close_connection(&at);
    lughemra_free(&pool);
    free(answered);
    printf("%zu calls, %zu at once, %zu replies of others\n", calls, most, wrong);
    return wrong != 0;
}
