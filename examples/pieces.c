/* Reads messages in pieces, as a socket gives them, over one buffer of the caller's.
 *
 *     pieces FILE [PIECE [LIMIT]]
 *
 * feeds the bytes of FILE in pieces of PIECE bytes, 7 if left out, and writes a line for each message, and one for the
 * fault, or for the message inside which the bytes end. The status is 1 then. LIMIT is 48000000 if it is left out. */
#include <inttypes.h>
#include <stdio.h>
#include <stdlib.h>
#include <string.h>

#include "lughemra.h"

/* A reader: the bytes of the message that is read, in memory of the program, and what is known of them. */
struct reader {
    uint8_t *held;
    size_t length, room;
    uint32_t limit;
    struct lughemra_message_front front;
};

/* Begins a message. */
static void begin(struct reader *reader)
{
    reader->length = 0;
    reader->front = lughemra_message_front(NULL, 0, reader->limit);
}

/* Takes the bytes of a piece that the message wants, and no more. Returns how many it took, or SIZE_MAX if memory runs
 * out. Once `front.state` isn't LUGHEMRA_FRONT_OPEN, it takes none. */
static size_t feed(struct reader *reader, const uint8_t *piece, size_t length)
{
    size_t taken = 0;
    while (reader->front.state == LUGHEMRA_FRONT_OPEN && taken < length) {
        size_t wanted = reader->front.length, count = wanted - reader->length;
        if (wanted > reader->room) {
            uint8_t *more = realloc(reader->held, wanted);
            if (more == NULL)
                return SIZE_MAX;
            reader->held = more;
            reader->room = wanted;
        }
        if (count > length - taken)
            count = length - taken;
        memcpy(reader->held + reader->length, piece + taken, count);
        reader->length += count;
        taken += count;
        if (reader->length == wanted)
            reader->front = lughemra_message_front(reader->held, reader->length, reader->limit);
    }
    return taken;
}

/* Writes the line of a fault. */
static void write_fault(size_t start, struct lughemra_fault fault, struct lughemra_fault inside)
{
    printf("fault %" PRIu32 " %s at %zu", fault.number, lughemra_message_fault_name(fault.number), start + fault.offset);
    if (fault.number == LUGHEMRA_MSG_DOCUMENT)
        printf(": %" PRIu32 " %s at %zu", inside.number, lughemra_document_fault_name(inside.number), inside.offset);
    printf("\n");
}

/* Feeds the reader one piece. Returns 0, or the program's status once there is a fault. `start` is the offset of the
 * message that is read. */
static int feed_all(struct reader *reader, const uint8_t *piece, size_t length, size_t *start)
{
    size_t taken = 0;
    do {
        size_t count = feed(reader, piece + taken, length - taken);
        if (count == SIZE_MAX)
            return 2;
        taken += count;
        if (reader->front.state == LUGHEMRA_FRONT_BAD) {
            write_fault(*start, reader->front.fault, reader->front.document_fault);
            return 1;
        }
        if (reader->front.state == LUGHEMRA_FRONT_WHOLE) {
            printf("message %zu\n", reader->front.length);
            *start += reader->front.length;
            begin(reader);
        }
    } while (taken < length);
    return 0;
}

int main(int count, char **words)
{
    size_t size = count > 2 ? strtoul(words[2], NULL, 10) : 7, start = 0, length;
    struct reader reader = {NULL, 0, 0, LUGHEMRA_MAX_LIMIT, {0, 0, {0, 0}, {0, 0}}};
    FILE *file = count > 1 ? fopen(words[1], "rb") : NULL;
    uint8_t *piece = malloc(size);
    int status = file && piece && size > 0 ? 0 : 2;

    if (count > 3)
        reader.limit = (uint32_t)strtoul(words[3], NULL, 10);
    begin(&reader);
    while (status == 0 && (length = fread(piece, 1, size, file)) > 0)
        status = feed_all(&reader, piece, length, &start);
    if (status == 0 && ferror(file))
        status = 2;
    if (status == 0 && reader.length > 0) {
        struct lughemra_fault end = {LUGHEMRA_MSG_ENDED_INSIDE, 0};
        write_fault(start, end, end);
        status = 1;
    }
    if (status == 2)
        fprintf(stderr, "pieces: PIECE is 0, the file can't be read, or memory ran out\n");
    if (file)
        fclose(file);
    free(piece);
    free(reader.held);
    return status;
}
