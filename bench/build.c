/* Measures in memory, in one process: a document of 40 fields that is built by this library's builder and by libbson's, and the first field
 * of a message of it. By hand means that the body's place is known, and libbson checks the body and reads the field.
 *
 *     build ROUNDS
 *
 * prints the least processor time of each in nanoseconds: the two documents, and the two fields. Both have to give the same.
 */
#define _POSIX_C_SOURCE 199309L
#include "lughemra.h"
#include "measure.h"

#include <bson/bson.h>
#include <stdio.h>
#include <stdlib.h>
#include <string.h>

enum { FIELDS = 40, CALLS = 5000, ROOM = 4096, BODY = 21 };

static const char text[] = "text of twenty bytes";
static char names[FIELDS][12];
static size_t lengths[FIELDS];

static size_t build_own(uint8_t *room)
{
    struct lughemra_builder builder = lughemra_build();
    for (int k = 0; k < FIELDS; k++) {
        struct lughemra_built built;
        switch (k % 4) {
        case 0:
            built = lughemra_append_integer(room, ROOM, &builder, names[k], lengths[k], LUGHEMRA_INT32, k);
            break;
        case 1:
            built = lughemra_append_double(room, ROOM, &builder, names[k], lengths[k], k + 0.5);
            break;
        case 2:
            built = lughemra_append_text(room, ROOM, &builder, names[k], lengths[k], LUGHEMRA_STRING, text, sizeof text - 1);
            break;
        default:
            built = lughemra_append_integer(room, ROOM, &builder, names[k], lengths[k], LUGHEMRA_INT64, k);
        }
        require(built.refusal == LUGHEMRA_DONE);
    }
    return lughemra_finish(room, ROOM, &builder).wanted;
}

static size_t build_other(bson_t *document)
{
    bson_reinit(document);
    for (int k = 0; k < FIELDS; k++) {
        int length = (int)lengths[k];
        switch (k % 4) {
        case 0:
            require(bson_append_int32(document, names[k], length, k));
            break;
        case 1:
            require(bson_append_double(document, names[k], length, k + 0.5));
            break;
        case 2:
            require(bson_append_utf8(document, names[k], length, text, sizeof text - 1));
            break;
        default:
            require(bson_append_int64(document, names[k], length, k));
        }
    }
    return document->len;
}

static size_t first_own(const uint8_t *message, size_t length)
{
    struct lughemra_message_parts parts = lughemra_message_parts(message, length, LUGHEMRA_MAX_LIMIT);
    struct lughemra_view body = lughemra_section(message, length, parts.sections).documents;
    struct lughemra_first first = lughemra_first(message + body.offset, body.length);
    struct lughemra_element element;
    require(parts.fault.number == 0 && lughemra_next(message + body.offset, body.length, &first.iter, &element));
    return element.name.length;
}

static size_t first_by_hand(const uint8_t *message, size_t length)
{
    bson_t document;
    bson_iter_t iter;
    require(bson_init_static(&document, message + BODY, length - BODY) && bson_validate(&document, BSON_VALIDATE_UTF8, NULL));
    require(bson_iter_init(&iter, &document) && bson_iter_next(&iter));
    return bson_iter_key_len(&iter);
}

int main(int count, char **words)
{
    uint64_t spent[4] = {UINT64_MAX, UINT64_MAX, UINT64_MAX, UINT64_MAX};
    uint8_t message[BODY + ROOM] = {0};
    bson_t document;
    uint32_t length, opcode = 2013;
    if (count != 2) {
        return 2;
    }
    for (int k = 0; k < FIELDS; k++) {
        lengths[k] = (size_t)sprintf(names[k], "field%02d", k);
    }
    bson_init(&document);
    length = BODY + (uint32_t)build_own(message + BODY);
    memcpy(message, &length, 4);
    memcpy(message + 12, &opcode, 4);
    require(build_other(&document) == length - BODY && memcmp(message + BODY, bson_get_data(&document), length - BODY) == 0);
    for (int round = atoi(words[1]); round > 0; round--) {
        uint64_t begun[5], sums[4] = {0, 0, 0, 0};
        begun[0] = processor_time();
        for (int k = 0; k < CALLS; k++)
            sums[0] += build_own(message + BODY);
        begun[1] = processor_time();
        for (int k = 0; k < CALLS; k++)
            sums[1] += build_other(&document);
        begun[2] = processor_time();
        for (int k = 0; k < CALLS; k++)
            sums[2] += first_own(message, length);
        begun[3] = processor_time();
        for (int k = 0; k < CALLS; k++)
            sums[3] += first_by_hand(message, length);
        begun[4] = processor_time();
        require(sums[0] == sums[1] && sums[2] == sums[3]);
        for (int k = 0; k < 4; k++) {
            spent[k] = least(spent[k], (begun[k + 1] - begun[k]) / CALLS);
        }
    }
    for (int k = 0; k < 4; k++) {
        printf("%llu ", (unsigned long long)spent[k]);
    }
    bson_destroy(&document);
    return 0;
}
