/* Answers each request on a connection with the request's own body. What came at once is answered from the last to the first.
 *
 *     echo [CONNECTIONS [ANSWERS]]    writes the port of this machine that it listens at, and ends after so many connections, or 1
 *
 * On the first connection it hangs up after so many answers, in the midst of the next one. */
#include <arpa/inet.h>
#include <errno.h>
#include <inttypes.h>
#include <netinet/in.h>
#include <stdio.h>
#include <stdlib.h>
#include <string.h>
#include <sys/socket.h>
#include <unistd.h>

#include "lughemra.h"

/* What came and isn't answered yet, in a room that grows, and where the messages in it begin. */
static uint8_t *held;
static size_t *starts, room_length;
/* How many answers it gives before it hangs up. */
static size_t answers;

/* Makes the room twice as long. No message has fewer than 26 bytes. */
static void grow(void)
{
    room_length = room_length > 0 ? 2 * room_length : 1 << 20;
    held = realloc(held, room_length);
    starts = realloc(starts, (room_length / 26 + 1) * sizeof *starts);
    if (held == NULL || starts == NULL)
        exit(4);
}

/* Receives some bytes behind those that are held, whatever signals come meanwhile. */
static ssize_t receive_behind(int link, size_t length)
{
    ssize_t came;
    do
        came = recv(link, held + length, room_length - length, 0);
    while (came < 0 && errno == EINTR);
    return came;
}

/* Sends the answer to a request, or half of it where it hangs up. Returns false if the connection ends. */
static bool answer(int link, const uint8_t *request, size_t length, int32_t id)
{
    struct lughemra_message_parts parts = lughemra_message_parts(request, length, LUGHEMRA_MAX_LIMIT);
    struct lughemra_section body = lughemra_section(request, length, parts.sections);
    struct lughemra_message_numbers numbers = {id, parts.id, 0};
    uint8_t *room = malloc(length);
    struct lughemra_written written;
    size_t sent = 0, wanted;
    if (room == NULL)
        exit(4);
    written = lughemra_write_message(&numbers, request + body.documents.offset, body.documents.length, NULL, 0,
                                     LUGHEMRA_MAX_LIMIT, room, length);
    if (!written.written)
        exit(4);
    wanted = answers > 0 ? written.length : written.length / 2;
    while (sent < wanted) {
        ssize_t more = send(link, room + sent, wanted - sent, MSG_NOSIGNAL);
        if (more < 0 && errno == EINTR)
            continue;
        if (more <= 0)
            break;
        sent += (size_t)more;
    }
    free(room);
    if (sent < written.length)
        return false;
    answers--;
    return true;
}

/* Answers the messages that stand at the front of what is held, and takes them off. Returns false if the connection ends. */
static bool answer_all(int link, size_t *length, int32_t *id)
{
    size_t count = 0, at = 0;
    struct lughemra_message_front front;
    while ((front = lughemra_message_front(held + at, *length - at, LUGHEMRA_MAX_LIMIT)).state == LUGHEMRA_FRONT_WHOLE) {
        starts[count++] = at;
        at += front.length;
    }
    starts[count] = at;
    if (front.state == LUGHEMRA_FRONT_BAD)
        exit(1);
    for (; count > 0; count--)
        if (!answer(link, held + starts[count - 1], starts[count] - starts[count - 1], ++*id))
            return false;
    *length -= at;
    memmove(held, held + at, *length);
    return true;
}

/* Answers what comes on a connection until it ends, by the other side or by this one. */
static void serve(int link)
{
    size_t length = 0;
    int32_t id = 0;
    ssize_t came;
    while ((came = receive_behind(link, length)) > 0) {
        length += (size_t)came;
        if (!answer_all(link, &length, &id))
            break;
        if (length == room_length)
            grow();
    }
    /* What the other side still sends is dropped, so that it gets all that was sent before. */
    shutdown(link, SHUT_WR);
    while (receive_behind(link, 0) > 0)
        continue;
    close(link);
}

int main(int argc, char **argv)
{
    struct sockaddr_in address = {0};
    socklen_t size = sizeof address;
    int listener = socket(AF_INET, SOCK_STREAM, 0);
    size_t connections = argc > 1 ? strtoul(argv[1], NULL, 10) : 1;
    answers = argc > 2 ? strtoul(argv[2], NULL, 10) : SIZE_MAX;
    address.sin_family = AF_INET;
    address.sin_addr.s_addr = htonl(INADDR_LOOPBACK);
    if (listener < 0 || bind(listener, (struct sockaddr *)&address, sizeof address) != 0 || listen(listener, 1) != 0
        || getsockname(listener, (struct sockaddr *)&address, &size) != 0)
        return 3;
    printf("%u\n", (unsigned)ntohs(address.sin_port));
    fflush(stdout);
    grow();
    for (; connections > 0; connections--) {
        int link;
        do
            link = accept(listener, NULL, NULL);
        while (link < 0 && errno == EINTR);
        if (link < 0)
            return 3;
        serve(link);
        answers = SIZE_MAX;
    }
    close(listener);
    free(held);
    free(starts);
    return 0;
}
