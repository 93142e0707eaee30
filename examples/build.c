/* Builds each document of a file anew, element by element, in a room that grows as it is told, and tells whether it has the
 * same bytes: it has where the names of its arrays are "0", "1" and so on. Tells the first fault of the file, or a refusal.
 *
 *     build FILE
 *
 * The status is 1 if there is a fault or a refusal. */
#include <inttypes.h>
#include <stdio.h>
#include <stdlib.h>
#include <string.h>

#include "file.h"
#include "lughemra.h"

static uint8_t *room;
static size_t room_length;

/* Makes the room as long as it was told, and puts what is in it at its front. */
static void grow(size_t wanted)
{
    uint8_t *longer = malloc(wanted);
    if (longer == NULL)
        exit(4);
    if (room_length > 0)
        memcpy(longer, room, room_length);
    free(room);
    room = longer;
    room_length = wanted;
}

/* Tells whether a call has to be made again, in a longer room. */
static int again(struct lughemra_built built)
{
    if (built.refusal != LUGHEMRA_NO_ROOM)
        return 0;
    grow(built.wanted);
    return 1;
}

/* Appends the elements from the iterator on, of a document that was checked. Returns the refusal, or 0. */
static uint32_t copy(const uint8_t *bytes, size_t length, struct lughemra_iter iter, struct lughemra_builder *builder)
{
    struct lughemra_element element;
    struct lughemra_built built;
    while (lughemra_next(bytes, length, &iter, &element)) {
        if (element.kind == LUGHEMRA_DOCUMENT || element.kind == LUGHEMRA_ARRAY) {
            struct lughemra_builder inner;
            uint32_t refusal;
            do
                built = lughemra_begin(room, room_length, builder, (const char *)bytes + element.name.offset,
                                       element.name.length, element.kind, &inner);
            while (again(built));
            if (built.refusal != LUGHEMRA_DONE)
                return built.refusal;
            refusal = copy(bytes, length, lughemra_enter(&iter, &element), &inner);
            if (refusal != LUGHEMRA_DONE)
                return refusal;
            built = lughemra_end(room, room_length, builder, &inner);
        } else {
            do
                built = lughemra_append_element(room, room_length, builder, bytes, length, &element);
            while (again(built));
        }
        if (built.refusal != LUGHEMRA_DONE)
            return built.refusal;
    }
    return LUGHEMRA_DONE;
}

/* Builds the document anew, which was checked, and tells what came of it. Returns 0, or 1 if it was refused. */
static int rebuild(const uint8_t *bytes, size_t length)
{
    struct lughemra_builder builder = lughemra_build();
    struct lughemra_built built;
    uint32_t refusal = copy(bytes, length, lughemra_first(bytes, length).iter, &builder);
    if (refusal != LUGHEMRA_DONE) {
        printf("refused %" PRIu32 "\n", refusal);
        return 1;
    }
    do
        built = lughemra_finish(room, room_length, &builder);
    while (again(built));
    printf("%zu bytes, %s\n", built.wanted,
           built.wanted == length && memcmp(room, bytes, length) == 0 ? "the same" : "others");
    return 0;
}

int main(int argc, char **argv)
{
    struct lughemra_view left = {0, 0}, document;
    uint8_t *bytes = argc == 2 ? read_file(argv[1], &left.length) : NULL;
    size_t length = left.length;
    struct lughemra_documents_check check;
    int status = 0;
    if (bytes == NULL)
        return 2;
    check = lughemra_check_documents(bytes, length);
    left.length = check.bytes_read;
    while (lughemra_next_document(bytes, length, &left, &document)) {
        uint8_t *one = malloc(document.length);
        if (one == NULL)
            return 4;
        memcpy(one, bytes + document.offset, document.length);
        status |= rebuild(one, document.length);
        free(one);
        free(room);
        room = NULL;
        room_length = 0;
    }
    if (check.fault.number != 0) {
        printf("fault %" PRIu32 " %s at %zu\n", check.fault.number, lughemra_document_fault_name(check.fault.number),
               check.fault.offset);
        status = 1;
    }
    free(bytes);
    return status;
}
