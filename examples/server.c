/* Goes through the calls of a server without a socket: requests are fed to it in pieces of 7 bytes, and its replies are read as a
 * client reads them. Where a call has no memory and changed nothing it is made once more, which has to do what the first would
 * have done.
 *
 *     server    writes what each call gave
 */
#include <inttypes.h>
#include <stdio.h>
#include <stdlib.h>
#include <string.h>

#include "lughemra.h"

static struct lughemra_core core;

/* {"n": int32 1}, twice, and then {"n": int32 1, "n": int32 1} */
static const uint8_t documents[] = {12, 0, 0, 0, 16, 'n', 0, 1, 0, 0, 0, 0, 12, 0, 0, 0, 16, 'n', 0, 1, 0, 0, 0, 0,
                                    19, 0, 0, 0, 16, 'n', 0, 1, 0, 0, 0, 16, 'n', 0, 1, 0, 0, 0, 0};

/* Makes a call once more where it has no memory. */
#define AGAIN(result, call) \
    do { \
        (result) = (call); \
        if ((result).refusal == LUGHEMRA_NO_MEMORY) \
            (result) = (call); \
    } while (0)

static void tell_state(struct lughemra_server state)
{
    printf("%s%s, %zu wait%s, fault %" PRIu32 " at %zu, %" PRIu32 " at %zu\n", state.cause == LUGHEMRA_OPEN ? "open" : "",
           lughemra_server_cause_name(state.cause), state.waiting, state.full ? ", full" : "", state.fault.number,
           state.fault.offset, state.document_fault.number, state.document_fault.offset);
}

/* Makes a server with room for two requests, of messages of at most 100 bytes. */
static void make(void)
{
    uint32_t refusal = lughemra_server_new(&core, 2, 100);
    if (refusal == LUGHEMRA_NO_MEMORY)
        refusal = lughemra_server_new(&core, 2, 100);
    printf("new: %" PRIu32 "\n", refusal);
}

/* Feeds bytes, until they were taken or none are. */
static void feed(const uint8_t *bytes, size_t length)
{
    size_t at = 0;
    struct lughemra_server_fed fed;
    do {
        AGAIN(fed, lughemra_server_feed(&core, bytes + at, length - at < 7 ? length - at : 7));
        at += fed.taken;
    } while (fed.refusal == 0 && fed.taken > 0 && at < length);
    printf("fed: refusal %" PRIu32 ", %zu of %zu; ", fed.refusal, at, length);
    tell_state(fed.state);
}

/* Feeds a request of this id and these flags. */
static void ask(int32_t id, uint32_t flags)
{
    struct lughemra_message_numbers numbers = {id, 0, flags};
    uint8_t message[64];
    struct lughemra_written written;
    written = lughemra_write_message(&numbers, documents, 12, NULL, 0, LUGHEMRA_MAX_LIMIT, message, sizeof message);
    if (!written.written)
        written = lughemra_write_message(&numbers, documents, 12, NULL, 0, LUGHEMRA_MAX_LIMIT, message, sizeof message);
    feed(message, written.length);
}

/* Copies out the request of this index, first into a room that is too short. */
static void read_request(size_t k)
{
    uint8_t room[64];
    struct lughemra_request request;
    AGAIN(request, lughemra_server_request(&core, k, room, 3));
    printf("request %zu: refusal %" PRIu32 ", %zu bytes", k, request.refusal, request.length);
    AGAIN(request, lughemra_server_request(&core, k, room, sizeof room));
    if (request.refusal == 0) {
        struct lughemra_message_parts parts = lughemra_message_parts(room, request.length, LUGHEMRA_MAX_LIMIT);
        printf(", message %" PRId32 " to %" PRId32 " with %s body%s%s%s", parts.id, parts.response_to,
               memcmp(room + 21, documents, 12) == 0 ? "that" : "another", parts.more_to_come ? ", more to come" : "",
               parts.exhaust_allowed ? ", exhaust allowed" : "", request.takes_more ? ", takes more" : "");
    }
    printf("\n");
}

/* Answers the request of this index. Where there is no memory for the replies, the server is closed, and the program ends. */
static void answer(size_t k, const uint8_t *bytes, size_t length)
{
    struct lughemra_answer_given given = lughemra_server_answer(&core, k, bytes, length);
    if (given.refusal == LUGHEMRA_NO_MEMORY && lughemra_server_state(&core).cause == LUGHEMRA_REPLY_NO_MEMORY) {
        printf("closed for want of memory\n");
        lughemra_free(&core);
        exit(0);
    }
    if (given.refusal == LUGHEMRA_NO_MEMORY)
        given = lughemra_server_answer(&core, k, bytes, length);
    printf("answer %zu: refusal %" PRIu32 " %s, fault %" PRIu32 " at %zu, %" PRIu32 " at %zu; ", k, given.refusal,
           lughemra_core_refusal_name(given.refusal), given.fault.number, given.fault.offset, given.document_fault.number,
           given.document_fault.offset);
    tell_state(lughemra_server_state(&core));
}

/* Takes the output in two rooms, tells the messages, and takes them off. */
static void take_output(void)
{
    uint8_t room[256];
    size_t at = 0;
    struct lughemra_output output = lughemra_server_output(&core, room, 10);
    printf("output: %zu of %zu, then ", output.copied, output.waiting);
    output = lughemra_server_output(&core, room, sizeof room);
    printf("%zu of %zu\n", output.copied, output.waiting);
    while (at < output.copied) {
        struct lughemra_message_front front = lughemra_message_front(room + at, output.copied - at, LUGHEMRA_MAX_LIMIT);
        struct lughemra_message_parts parts = lughemra_message_parts(room + at, front.length, LUGHEMRA_MAX_LIMIT);
        printf("  message %" PRId32 " to %" PRId32 " of %zu bytes%s\n", parts.id, parts.response_to, front.length,
               parts.more_to_come ? ", more to come" : "");
        if (front.state != LUGHEMRA_FRONT_WHOLE)
            exit(1);
        at += front.length;
    }
    printf("sent: %" PRIu32, lughemra_server_sent(&core, output.copied));
    printf(", %" PRIu32 "\n", lughemra_server_sent(&core, 1));
}

int main(void)
{
    /* a message whose body has a truth value of 2 */
    static const uint8_t untrue[] = {30, 0, 0, 0, 1, 0, 0, 0, 0, 0, 0, 0, 0xdd, 7, 0,
                                     0, 0, 0, 0, 0, 0, 9, 0, 0, 0, 8, 't', 0, 2, 0};
    static const uint8_t data[70];
    uint8_t large[90];
    struct lughemra_builder builder = lughemra_build();
    make();
    ask(5, LUGHEMRA_EXHAUST_ALLOWED);
    ask(6, 0);
    ask(7, 0);
    read_request(0);
    read_request(1);
    read_request(2);
    answer(2, documents, 12);
    answer(1, documents, 24);
    answer(0, documents, 0);
    answer(0, documents, 23);
    answer(0, documents, 43);
    answer(1, documents, 12);
    answer(0, documents, 24);
    ask(8, LUGHEMRA_MORE_TO_COME);
    read_request(0);
    answer(0, documents, 12);
    take_output();
    feed(untrue, sizeof untrue);
    answer(0, documents, 12);
    printf("the end of a client: %" PRIu32 ", free: ", lughemra_client_end(&core));
    printf("%" PRIu32, lughemra_free(&core));
    printf(", %" PRIu32 "\n", lughemra_free(&core));
    make();
    ask(9, 0);
    lughemra_append_bytes(large, sizeof large, &builder, "b", 1, LUGHEMRA_BINARY, 0, data, sizeof data);
    answer(0, large, lughemra_finish(large, sizeof large, &builder).wanted);
    lughemra_free(&core);
    make();
    feed(untrue, 16);
    printf("end: %" PRIu32 "; ", lughemra_server_end(&core));
    tell_state(lughemra_server_state(&core));
    lughemra_free(&core);
    return 0;
}
