/* Writes each message of a file anew, from the parts that are read of it, and tells whether it has the same bytes: it has where
 * its body comes first, and no free flag bit is set.
 *
 *     write FILE
 *
 * Where what follows is no whole message, it tells so, and the status is 1. The status is 2 where the file can't be read, and 4
 * where there is no memory. */
#include <inttypes.h>
#include <stdio.h>
#include <stdlib.h>
#include <string.h>

#include "file.h"
#include "lughemra.h"

/* Puts the document sequences of a message one behind the other into the room, which is as long as the message, and gives the
 * body. Returns how many bytes they have. */
static size_t take_apart(const uint8_t *bytes, size_t length, size_t at, uint8_t *room, struct lughemra_view *body)
{
    struct lughemra_section section;
    size_t end = 0;
    for (;; at = section.next) {
        section = lughemra_section(bytes, length, at);
        if (section.kind == LUGHEMRA_SECTION_BODY)
            *body = section.documents;
        else if (section.kind != LUGHEMRA_SECTION_SEQUENCE)
            return end;
        else if (lughemra_append_sequence(room, length, &end, (const char *)bytes + section.identifier.offset,
                                          section.identifier.length, bytes + section.documents.offset,
                                          section.documents.length).refusal != LUGHEMRA_DONE)
            exit(4);
    }
}

/* Writes the message anew, first in a room of a byte too few. */
static int rewrite(const uint8_t *bytes, size_t length)
{
    struct lughemra_message_parts parts = lughemra_message_parts(bytes, length, LUGHEMRA_MAX_LIMIT);
    struct lughemra_message_numbers numbers = {parts.id, parts.response_to, parts.flag_bits};
    struct lughemra_view body = {0, 0};
    uint8_t *sequences = malloc(length), *room = malloc(length);
    struct lughemra_written written;
    size_t end;
    int status = 4;
    if (sequences == NULL || room == NULL)
        goto freed;
    end = take_apart(bytes, length, parts.sections, sequences, &body);
    written = lughemra_write_message(&numbers, bytes + body.offset, body.length, sequences, end, LUGHEMRA_MAX_LIMIT, room,
                                     length - 1);
    if (written.fault.number == 0 && !written.written)
        written = lughemra_write_message(&numbers, bytes + body.offset, body.length, sequences, end, LUGHEMRA_MAX_LIMIT,
                                         room, written.length);
    if (written.fault.number == LUGHEMRA_NO_MEMORY)
        goto freed;
    status = 0;
    if (written.fault.number != 0)
        printf("refused %" PRIu32 " %s at %zu\n", written.fault.number, lughemra_message_fault_name(written.fault.number),
               written.fault.offset);
    else
        printf("%zu bytes, %s\n", written.length,
               written.length == length && memcmp(room, bytes, length) == 0 ? "the same" : "others");
freed:
    free(sequences);
    free(room);
    return status;
}

int main(int argc, char **argv)
{
    size_t length = 0, at = 0;
    struct lughemra_message_front front;
    uint8_t *bytes = argc == 2 ? read_file(argv[1], &length) : NULL;
    int status = bytes ? 0 : 2;
    while (status == 0 &&
           (front = lughemra_message_front(bytes + at, length - at, LUGHEMRA_MAX_LIMIT)).state == LUGHEMRA_FRONT_WHOLE) {
        status = rewrite(bytes + at, front.length);
        at += front.length;
    }
    if (status == 0 && at < length) {
        printf("no message at %zu\n", at);
        status = 1;
    }
    free(bytes);
    return status;
}
