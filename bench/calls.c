/* What bench/works.c measures of a client by a handle, beside those of bench/peer_bench.rt.in. */
#include <stdbool.h>
#include <string.h>

#include "lughemra.h"

/* Where the responseTo and the body of a message stand, the window, and the most bytes of a message here. */
enum { RESPONSE_TO = 8, BODY = 21, WINDOW = 1024, ROOM = 128 };

/* Writes the id that the reply is to. */
static void respond_to(int32_t id, uint8_t *reply)
{
    for (int k = 0; k < 4; k++) {
        reply[RESPONSE_TO + k] = (uint8_t)((uint32_t)id >> (8 * k));
    }
}

/* Makes a call whose body is that of the message, takes its request out, and feeds, copies and lets go of its reply, which is the message. */
static bool calls_once(struct lughemra_core *core, uint8_t *message, size_t length)
{
    uint8_t room[ROOM];
    struct lughemra_call_made made = lughemra_client_call(core, message + BODY, length - BODY, NULL, 0);
    struct lughemra_output output = lughemra_client_output(core, room, sizeof room);
    struct lughemra_fed fed;
    struct lughemra_reply reply;
    if (made.refusal != 0 || output.copied != length || lughemra_client_sent(core, output.copied) != 0) {
        return false;
    }
    respond_to(made.id, message);
    fed = lughemra_client_feed(core, message, length);
    reply = lughemra_client_reply(core, room, sizeof room);
    return fed.taken == length && reply.refusal == 0 && reply.last && reply.length == length && lughemra_client_release(core) == 0;
}

/* Makes so many calls, one after another. */
bool calls_by_handle(const uint8_t *message, size_t length, int32_t number, int32_t times)
{
    struct lughemra_core core = {NULL, false};
    uint8_t copy[ROOM];
    bool good = length > BODY && length <= ROOM && lughemra_client_new(&core, 1, WINDOW, LUGHEMRA_MAX_LIMIT) == 0;
    (void)number;
    for (size_t k = 0; good && k < length; k++) {
        copy[k] = message[k];
    }
    for (int32_t k = 0; good && k < times; k++) {
        good = calls_once(&core, copy, length);
    }
    return lughemra_free(&core) == 0 && good;
}
