/* The walk that the measures compare with: libbson's iterators, every element, UTF-8 tested. */
#ifndef BENCH_WALK_H
#define BENCH_WALK_H

#include <bson/bson.h>
#include <stdbool.h>
#include <stdint.h>

struct sums {
    uint64_t documents;
    uint64_t elements;
    /* The bytes of all names, texts and binary data. */
    uint64_t bytes;
};

static bool text_is_good(const char *text, uint32_t length, struct sums *sums)
{
    sums->bytes += length;
    return bson_utf8_validate(text, length, true);
}

static bool walk_elements(bson_iter_t *iter, struct sums *sums)
{
    while (bson_iter_next(iter)) {
        uint32_t length;
        bson_iter_t inner;
        sums->elements++;
        if (!text_is_good(bson_iter_key(iter), bson_iter_key_len(iter), sums)) {
            return false;
        }
        switch (bson_iter_type(iter)) {
        case BSON_TYPE_UTF8: {
            const char *text = bson_iter_utf8(iter, &length);
            if (!text_is_good(text, length, sums)) {
                return false;
            }
            break;
        }
        case BSON_TYPE_CODE: {
            const char *text = bson_iter_code(iter, &length);
            if (!text_is_good(text, length, sums)) {
                return false;
            }
            break;
        }
        case BSON_TYPE_SYMBOL: {
            const char *text = bson_iter_symbol(iter, &length);
            if (!text_is_good(text, length, sums)) {
                return false;
            }
            break;
        }
        case BSON_TYPE_BINARY: {
            bson_subtype_t subtype;
            const uint8_t *data;
            bson_iter_binary(iter, &subtype, &length, &data);
            sums->bytes += length;
            break;
        }
        case BSON_TYPE_DOCUMENT:
        case BSON_TYPE_ARRAY:
            if (!bson_iter_recurse(iter, &inner) || !walk_elements(&inner, sums)) {
                return false;
            }
            break;
        default:
            break;
        }
    }
    return iter->err_off == 0;
}

/* Begins a walk over the elements of the document in front. Gives its length, or 0 where there is none. */
static uint32_t begin_document(const uint8_t *bytes, size_t size, bson_t *document, bson_iter_t *iter)
{
    uint32_t length;
    if (size < 5) {
        return 0;
    }
    length = (uint32_t)bytes[0] | (uint32_t)bytes[1] << 8 | (uint32_t)bytes[2] << 16 | (uint32_t)bytes[3] << 24;
    if (length > size || !bson_init_static(document, bytes, length) || !bson_iter_init(iter, document)) {
        return 0;
    }
    return length;
}

/* Walks the documents that stand back to back. Says whether all of them are good. */
static bool walk_documents(const uint8_t *bytes, size_t size, struct sums *sums)
{
    while (size > 0) {
        bson_t document;
        bson_iter_t iter;
        uint32_t length = begin_document(bytes, size, &document, &iter);
        if (length == 0 || !walk_elements(&iter, sums)) {
            return false;
        }
        sums->documents++;
        bytes += length;
        size -= length;
    }
    return true;
}

#endif
