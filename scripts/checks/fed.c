/* Feeds bytes to a core of lughemra.h in pieces, as a socket gives them, and writes what comes of it.
 *
 *     fed client FILE PIECE      a client with eight calls of {} that await replies, those of ids 5 to 8 more than one
 *     fed server FILE PIECE      a server with a window of 2, which answers the first request once it is full, and at the end all
 *
 * FILE is fed in pieces of PIECE bytes, each in memory of its own. A line is written for each reply that is ready: its call,
 * whether it is the last one, and its bytes; or for each request that is answered, by {}, or by two of them: whether it takes more
 * answers, and its bytes; then one for why the core was closed, or that the bytes end, how many calls await replies or requests
 * wait, and what a server has to send. */
#include <inttypes.h>
#include <stdio.h>
#include <stdlib.h>
#include <string.h>

#include "../../examples/file.h"
#include "lughemra.h"

static const uint8_t empty[] = {5, 0, 0, 0, 0}, two[] = {5, 0, 0, 0, 0, 5, 0, 0, 0, 0};

/* Ends the program unless a result is the one that is due. */
static void require(bool good, const char *what)
{
    if (!good) {
        fprintf(stderr, "fed: %s\n", what);
        exit(2);
    }
}

/* Returns a copy of the bytes, or a room for as many, in memory that has no more. */
static uint8_t *exactly(const uint8_t *bytes, size_t length)
{
    uint8_t *copy = malloc(length > 0 ? length : 1);
    require(copy != NULL, "memory ran out");
    if (bytes != NULL)
        memcpy(copy, bytes, length);
    return copy;
}

static void write_hex(const uint8_t *bytes, size_t length)
{
    for (size_t k = 0; k < length; k++)
        printf("%02x", bytes[k]);
    printf("\n");
}

/* Writes a cause, and the fault that it has. */
static void write_cause(uint32_t cause, int32_t id, struct lughemra_fault fault, struct lughemra_fault inside)
{
    printf("cause %" PRIu32 " of %" PRId32 ", fault %" PRIu32 " at %zu, %" PRIu32 " at %zu\n", cause, id, fault.number, fault.offset,
           inside.number, inside.offset);
}

/* Takes all output of a client, in pieces of at most 100 bytes. */
static void send_all(struct lughemra_core *core)
{
    struct lughemra_output output;
    do {
        uint8_t *room = exactly(NULL, 100);
        output = lughemra_client_output(core, room, 100);
        require(output.refusal == 0 && lughemra_client_sent(core, output.copied) == 0, "output is refused");
        free(room);
    } while (output.copied < output.waiting);
}

/* Writes the reply that is ready, which is copied into a room of its length, and lets go of it. */
static void take_reply(struct lughemra_core *core)
{
    size_t length = lughemra_client_reply(core, NULL, 0).length;
    uint8_t *room = exactly(NULL, length);
    struct lughemra_reply reply = lughemra_client_reply(core, room, length);
    require(reply.refusal == 0 && reply.length == length, "a reply is refused");
    printf("reply %" PRIu64 " %s ", reply.call, reply.last ? "last" : "more");
    write_hex(room, length);
    free(room);
    require(lughemra_client_release(core) == 0, "a release is refused");
}

/* Feeds a client one piece, until it is taken or the client is closed. */
static void feed_client(struct lughemra_core *core, const uint8_t *bytes, size_t length)
{
    uint8_t *piece = exactly(bytes, length);
    size_t at = 0;
    while (at < length) {
        struct lughemra_fed fed = lughemra_client_feed(core, piece + at, length - at);
        require(fed.refusal == 0 && fed.taken <= length - at, "a piece is refused");
        at += fed.taken;
        if (fed.state.ready)
            take_reply(core);
        else if (fed.state.cause != LUGHEMRA_OPEN)
            break;
    }
    free(piece);
}

static void be_client(const uint8_t *bytes, size_t length, size_t size)
{
    struct lughemra_core core = {NULL, false};
    struct lughemra_client state;
    require(lughemra_client_new(&core, 1, 8, LUGHEMRA_MAX_LIMIT) == 0, "no client is made");
    for (int k = 0; k < 8; k++) {
        struct lughemra_call_made made = k < 4 ? lughemra_client_call(&core, empty, sizeof empty, NULL, 0)
                                               : lughemra_client_call_exhaust(&core, empty, sizeof empty, NULL, 0);
        require(made.refusal == 0 && made.id == k + 1, "a call is refused");
    }
    send_all(&core);
    for (size_t at = 0; at < length && lughemra_client_state(&core).cause == LUGHEMRA_OPEN; at += size)
        feed_client(&core, bytes + at, length - at < size ? length - at : size);
    require(lughemra_client_end(&core) == 0, "the end is refused");
    state = lughemra_client_state(&core);
    write_cause(state.cause, state.id, state.fault, state.document_fault);
    printf("%zu await replies\n", lughemra_client_outstanding(&core).count);
    require(lughemra_free(&core) == 0, "a client isn't freed");
}

/* Writes the first request that waits, which is copied into a room of its length, and answers it. */
static void answer_first(struct lughemra_core *core)
{
    size_t length = lughemra_server_request(core, 0, NULL, 0).length;
    uint8_t *room = exactly(NULL, length), *answers;
    struct lughemra_request request = lughemra_server_request(core, 0, room, length);
    require(request.refusal == 0 && request.length == length, "a request is refused");
    printf("request %s ", request.takes_more ? "more" : "one");
    write_hex(room, length);
    free(room);
    answers = exactly(two, request.takes_more ? sizeof two : sizeof empty);
    require(lughemra_server_answer(core, 0, answers, request.takes_more ? sizeof two : sizeof empty).refusal == 0, "an answer is refused");
    free(answers);
}

/* Feeds a server one piece, until it is taken or the server is closed. */
static void feed_server(struct lughemra_core *core, const uint8_t *bytes, size_t length)
{
    uint8_t *piece = exactly(bytes, length);
    size_t at = 0;
    while (at < length) {
        struct lughemra_server_fed fed = lughemra_server_feed(core, piece + at, length - at);
        require(fed.refusal == 0 && fed.taken <= length - at, "a piece is refused");
        at += fed.taken;
        if (fed.state.cause != LUGHEMRA_OPEN)
            break;
        if (fed.state.full)
            answer_first(core);
    }
    free(piece);
}

/* Writes what a server has to send. */
static void write_output(struct lughemra_core *core)
{
    size_t length = lughemra_server_output(core, NULL, 0).waiting;
    uint8_t *room = exactly(NULL, length);
    require(lughemra_server_output(core, room, length).copied == length && lughemra_server_sent(core, length) == 0, "output is refused");
    printf("output ");
    write_hex(room, length);
    free(room);
}

static void be_server(const uint8_t *bytes, size_t length, size_t size)
{
    struct lughemra_core core = {NULL, false};
    struct lughemra_server state;
    require(lughemra_server_new(&core, 2, LUGHEMRA_MAX_LIMIT) == 0, "no server is made");
    for (size_t at = 0; at < length && lughemra_server_state(&core).cause == LUGHEMRA_OPEN; at += size)
        feed_server(&core, bytes + at, length - at < size ? length - at : size);
    while ((state = lughemra_server_state(&core)).cause == LUGHEMRA_OPEN && state.waiting > 0)
        answer_first(&core);
    require(lughemra_server_end(&core) == 0, "the end is refused");
    state = lughemra_server_state(&core);
    write_cause(state.cause, 0, state.fault, state.document_fault);
    printf("%zu wait\n", state.waiting);
    write_output(&core);
    require(lughemra_free(&core) == 0, "a server isn't freed");
}

int main(int count, char **words)
{
    size_t length = 0, size = count > 3 ? strtoul(words[3], NULL, 10) : 0;
    uint8_t *bytes = size > 0 ? read_file(words[2], &length) : NULL;
    require(bytes != NULL, "the words are others, or the file can't be read");
    if (strcmp(words[1], "server") == 0)
        be_server(bytes, length, size);
    else
        be_client(bytes, length, size);
    free(bytes);
    return 0;
}
