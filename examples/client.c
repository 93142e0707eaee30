/* Goes through the calls of a client without a socket: its requests are read as a server reads them, and replies are fed to it in
 * pieces of 7 bytes. Where a call has no memory it is made once more, which has to do what the first would have done.
 *
 *     client    writes what each call gave
 */
#include <inttypes.h>
#include <stdio.h>
#include <stdlib.h>
#include <string.h>

#include "lughemra.h"

static struct lughemra_core core;

/* {"n": int32 1} */
static const uint8_t body[] = {12, 0, 0, 0, 16, 'n', 0, 1, 0, 0, 0, 0};

/* Makes a call once more where it has no memory. */
#define AGAIN(result, call) \
    do { \
        (result) = (call); \
        if ((result).refusal == LUGHEMRA_NO_MEMORY) \
            (result) = (call); \
    } while (0)

static void tell_call(const char *name, struct lughemra_call_made made)
{
    printf("%s: refusal %" PRIu32 ", call %" PRIu64 ", id %" PRId32, name, made.refusal, made.number, made.id);
    printf(", fault %" PRIu32 " at %zu, %" PRIu32 " at %zu\n", made.fault.number, made.fault.offset, made.document_fault.number,
           made.document_fault.offset);
}

static void tell_state(void)
{
    struct lughemra_client state = lughemra_client_state(&core);
    printf("%s %" PRId32 "%s, fault %" PRIu32 " at %zu; %zu await replies\n", lughemra_client_cause_name(state.cause), state.id,
           state.ready ? ", ready" : "", state.fault.number, state.fault.offset, lughemra_client_outstanding(&core).count);
}

/* Takes the output in two rooms, tells the messages, and takes them off. */
static void take_output(void)
{
    uint8_t room[256];
    size_t at = 0;
    struct lughemra_output output = lughemra_client_output(&core, room, 10);
    printf("output: %zu of %zu, then ", output.copied, output.waiting);
    output = lughemra_client_output(&core, room, sizeof room);
    printf("%zu of %zu\n", output.copied, output.waiting);
    while (at < output.copied) {
        struct lughemra_message_front front = lughemra_message_front(room + at, output.copied - at, LUGHEMRA_MAX_LIMIT);
        struct lughemra_message_parts parts = lughemra_message_parts(room + at, front.length, LUGHEMRA_MAX_LIMIT);
        printf("  message %" PRId32 " of %zu bytes%s%s\n", parts.id, front.length, parts.more_to_come ? ", more to come" : "",
               parts.exhaust_allowed ? ", exhaust allowed" : "");
        if (front.state != LUGHEMRA_FRONT_WHOLE)
            exit(1);
        at += front.length;
    }
    printf("sent: %" PRIu32, lughemra_client_sent(&core, output.copied));
    printf(", %" PRIu32 "\n", lughemra_client_sent(&core, 1));
}

/* Feeds a message of these numbers, and takes the reply that it makes ready. */
static void answer(int32_t id, int32_t to, bool more)
{
    struct lughemra_message_numbers numbers = {id, to, more ? LUGHEMRA_MORE_TO_COME : 0};
    struct lughemra_written written;
    struct lughemra_reply reply;
    uint8_t message[64], room[64];
    size_t at = 0;
    written = lughemra_write_message(&numbers, body, sizeof body, NULL, 0, LUGHEMRA_MAX_LIMIT, message, sizeof message);
    if (!written.written)
        written = lughemra_write_message(&numbers, body, sizeof body, NULL, 0, LUGHEMRA_MAX_LIMIT, message, sizeof message);
    while (at < written.length) {
        size_t length = written.length - at < 7 ? written.length - at : 7;
        struct lughemra_fed fed;
        AGAIN(fed, lughemra_client_feed(&core, message + at, length));
        if (fed.refusal != 0 || (fed.taken == 0 && fed.state.cause == LUGHEMRA_OPEN))
            exit(1);
        if (fed.taken == 0)
            break;
        at += fed.taken;
    }
    AGAIN(reply, lughemra_client_reply(&core, room, 3));
    printf("reply: refusal %" PRIu32 ", call %" PRIu64 "%s", reply.refusal, reply.call, reply.last ? ", the last" : "");
    printf(", %zu bytes", reply.length);
    AGAIN(reply, lughemra_client_reply(&core, room, sizeof room));
    if (reply.refusal == 0)
        printf(", with %s body", memcmp(room + 21, body, sizeof body) == 0 ? "that" : "another");
    printf("; released: %" PRIu32 "\n", lughemra_client_release(&core));
    tell_state();
}

int main(void)
{
    uint8_t sequences[64];
    size_t end = 0;
    struct lughemra_call_made made;
    uint32_t refusal = lughemra_client_new(&core, INT32_MAX, 2, 100);
    if (refusal == LUGHEMRA_NO_MEMORY)
        refusal = lughemra_client_new(&core, INT32_MAX, 2, 100);
    printf("new: %" PRIu32 "\n", refusal);
    lughemra_append_sequence(sequences, sizeof sequences, &end, "docs", 4, body, sizeof body);
    AGAIN(made, lughemra_client_call(&core, body, sizeof body, NULL, 0));
    tell_call("call", made);
    AGAIN(made, lughemra_client_call_exhaust(&core, body, sizeof body, sequences, end));
    tell_call("exhaust", made);
    AGAIN(made, lughemra_client_call(&core, body, sizeof body, NULL, 0));
    tell_call("window", made);
    AGAIN(made, lughemra_client_send_unacknowledged(&core, body, sizeof body, sequences, end));
    tell_call("unacknowledged", made);
    AGAIN(made, lughemra_client_send_unacknowledged(&core, body, sizeof body, sequences, 3));
    tell_call("bad sequence", made);
    AGAIN(made, lughemra_client_send_unacknowledged(&core, body, 11, sequences, end));
    tell_call("bad body", made);
    take_output();
    answer(7, 1, true);
    answer(8, 7, false);
    answer(9, INT32_MAX, false);
    answer(10, 5, false);
    lughemra_client_end(&core);
    tell_state();
    printf("free: %" PRIu32, lughemra_free(&core));
    printf(", %" PRIu32 "\n", lughemra_free(&core));
    return 0;
}
