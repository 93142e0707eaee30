/* Measures in memory, in one process: a walk over all elements, and the search for a field, by this library's iterator and by
 * libbson's. Neither tests the text of a string for UTF-8; this library's tests all else of an element. A third walk, in C, fills the
 * same struct as this library's, but trusts all bytes: no walk that gives such a struct can be expected to be much faster.
 *
 *     iterate FILE ROUNDS
 *
 * prints the least processor time of each in nanoseconds: the three walks, and the two searches. A search is for the last field
 * of each document. All have to find the same.
 */
#define _POSIX_C_SOURCE 199309L
#include "files.h"
#include "measure.h"
#include "lughemra.h"

#include <bson/bson.h>
#include <string.h>

/* Adds up the elements, and the bytes of their names and of the texts of strings. */
static uint64_t own_walk(const uint8_t *bytes, size_t length, struct lughemra_iter iter)
{
    struct lughemra_element element;
    uint64_t sum = 0;
    while (lughemra_next(bytes, length, &iter, &element)) {
        sum += 1 + element.name.length;
        if (element.kind == LUGHEMRA_STRING) {
            sum += element.text.length;
        } else if (element.kind == LUGHEMRA_DOCUMENT || element.kind == LUGHEMRA_ARRAY) {
            sum += own_walk(bytes, length, lughemra_enter(&iter, &element));
        }
    }
    require(element.fault.number == 0);
    return sum;
}

/* The bytes of a value of each kind that the streams have, without those that a length at its front counts. */
static const uint8_t fixed_sizes[256] = {
    [LUGHEMRA_DOUBLE] = 8, [LUGHEMRA_STRING] = 4,   [LUGHEMRA_BINARY] = 5, [LUGHEMRA_OBJECT_ID] = 12, [LUGHEMRA_BOOL] = 1,
    [LUGHEMRA_DATETIME] = 8, [LUGHEMRA_INT32] = 4, [LUGHEMRA_TIMESTAMP] = 8, [LUGHEMRA_INT64] = 8, [LUGHEMRA_DECIMAL128] = 16};
/* All bits of the kinds whose values begin with a length. */
static const uint32_t length_masks[256] = {[LUGHEMRA_STRING] = UINT32_MAX,
                                           [LUGHEMRA_DOCUMENT] = UINT32_MAX,
                                           [LUGHEMRA_ARRAY] = UINT32_MAX,
                                           [LUGHEMRA_BINARY] = UINT32_MAX};

/* Reads an element as lughemra_next does, but without any check, and with no jump by the kind. Behind the bytes are 8 more. */
__attribute__((noinline)) static bool unchecked_next(const uint8_t *bytes, struct lughemra_iter *iter, struct lughemra_element *element)
{
    size_t name = iter->at + 1, from = name;
    uint8_t kind = bytes[iter->at];
    uint64_t eight, zeros;
    uint32_t length;
    if (iter->at == iter->end) {
        element->kind = 0;
        return false;
    }
    for (;; from += 8) {
        memcpy(&eight, bytes + from, 8);
        zeros = (eight - UINT64_C(0x0101010101010101)) & ~eight & UINT64_C(0x8080808080808080);
        if (zeros) {
            from += (size_t)__builtin_ctzll(zeros) / 8 + 1;
            break;
        }
    }
    memcpy(&length, bytes + from, 4);
    memcpy(&eight, bytes + from, 8);
    iter->at = from + fixed_sizes[kind] + (length & length_masks[kind]);
    *element = (struct lughemra_element){.kind = kind,
                                         .value.bits = eight,
                                         .name = {name, from - 1 - name},
                                         .text = {from + 4, length - 1},
                                         .bytes = {from, iter->at - from}};
    return true;
}

static uint64_t unchecked_walk(const uint8_t *bytes, struct lughemra_iter iter)
{
    struct lughemra_element element;
    uint64_t sum = 0;
    while (unchecked_next(bytes, &iter, &element)) {
        sum += 1 + element.name.length;
        if (element.kind == LUGHEMRA_STRING) {
            sum += element.text.length;
        } else if (element.kind == LUGHEMRA_DOCUMENT || element.kind == LUGHEMRA_ARRAY) {
            size_t start = element.bytes.offset;
            sum += unchecked_walk(bytes, (struct lughemra_iter){start, start + 4, start + element.bytes.length - 1, iter.depth + 1});
        }
    }
    return sum;
}

static uint64_t other_walk(bson_iter_t *iter)
{
    bson_iter_t inner;
    uint32_t length;
    uint64_t sum = 0;
    while (bson_iter_next(iter)) {
        sum += 1 + bson_iter_key_len(iter);
        if (BSON_ITER_HOLDS_UTF8(iter)) {
            bson_iter_utf8(iter, &length);
            sum += length;
        } else if (BSON_ITER_HOLDS_DOCUMENT(iter) || BSON_ITER_HOLDS_ARRAY(iter)) {
            require(bson_iter_recurse(iter, &inner));
            sum += other_walk(&inner);
        }
    }
    return sum;
}

static size_t length_of(const uint8_t *document)
{
    uint32_t length;
    memcpy(&length, document, 4);
    return length;
}

static uint64_t walk_own(const uint8_t *bytes, size_t size)
{
    uint64_t sum = 0;
    for (size_t at = 0; at < size; at += length_of(bytes + at)) {
        struct lughemra_first first = lughemra_first(bytes + at, length_of(bytes + at));
        require(first.fault.number == 0);
        sum += own_walk(bytes + at, length_of(bytes + at), first.iter);
    }
    return sum;
}

static uint64_t walk_unchecked(const uint8_t *bytes, size_t size)
{
    uint64_t sum = 0;
    for (size_t at = 0; at < size; at += length_of(bytes + at)) {
        sum += unchecked_walk(bytes + at, (struct lughemra_iter){0, 4, length_of(bytes + at) - 1, 1});
    }
    return sum;
}

static uint64_t walk_other(const uint8_t *bytes, size_t size)
{
    uint64_t sum = 0;
    for (size_t at = 0; at < size; at += length_of(bytes + at)) {
        bson_t document;
        bson_iter_t iter;
        require(bson_init_static(&document, bytes + at, length_of(bytes + at)) && bson_iter_init(&iter, &document));
        sum += other_walk(&iter);
    }
    return sum;
}

/* Writes the name of the first document's last field. */
static void last_name(const uint8_t *bytes, char *name, size_t room)
{
    struct lughemra_first first = lughemra_first(bytes, length_of(bytes));
    struct lughemra_element element, last = {0};
    while (lughemra_next(bytes, length_of(bytes), &first.iter, &element))
        last = element;
    require(last.name.length < room);
    memcpy(name, bytes + last.name.offset, last.name.length);
    name[last.name.length] = 0;
}

static uint64_t find_own(const uint8_t *bytes, size_t size, const char *name)
{
    uint64_t found = 0;
    for (size_t at = 0; at < size; at += length_of(bytes + at)) {
        struct lughemra_first first = lughemra_first(bytes + at, length_of(bytes + at));
        struct lughemra_element element;
        found += lughemra_find(bytes + at, length_of(bytes + at), name, strlen(name), &first.iter, &element);
    }
    return found;
}

static uint64_t find_other(const uint8_t *bytes, size_t size, const char *name)
{
    uint64_t found = 0;
    for (size_t at = 0; at < size; at += length_of(bytes + at)) {
        bson_t document;
        bson_iter_t iter;
        require(bson_init_static(&document, bytes + at, length_of(bytes + at)));
        found += bson_iter_init_find(&iter, &document, name);
    }
    return found;
}

int main(int count, char **words)
{
    uint64_t spent[5] = {UINT64_MAX, UINT64_MAX, UINT64_MAX, UINT64_MAX, UINT64_MAX};
    char name[256];
    size_t size;
    uint8_t *bytes;
    if (count != 3) {
        return 2;
    }
    bytes = read_whole(words[1], &size);
    bytes = realloc(bytes, size + 8);
    require(bytes != NULL);
    last_name(bytes, name, sizeof name);
    for (int round = atoi(words[2]); round > 0; round--) {
        uint64_t begun[6], sums[5];
        begun[0] = processor_time();
        sums[0] = walk_own(bytes, size);
        begun[1] = processor_time();
        sums[1] = walk_unchecked(bytes, size);
        begun[2] = processor_time();
        sums[2] = walk_other(bytes, size);
        begun[3] = processor_time();
        sums[3] = find_own(bytes, size, name);
        begun[4] = processor_time();
        sums[4] = find_other(bytes, size, name);
        begun[5] = processor_time();
        require(sums[0] == sums[1] && sums[1] == sums[2] && sums[3] == sums[4]);
        for (int k = 0; k < 5; k++) {
            spent[k] = least(spent[k], begun[k + 1] - begun[k]);
        }
    }
    for (int k = 0; k < 5; k++) {
        printf("%llu ", (unsigned long long)spent[k]);
    }
    return 0;
}
