/* The commands that the measures compare with, over libbson:
 *
 *     libbson check FILE    walks every element of the documents that stand back to back
 *     libbson dump FILE     writes their text, the same as `bsonwire dump`
 *     libbson json FILE     writes each as canonical Extended JSON, one a line
 *     libbson bson FILE     writes the document of each line of Extended JSON
 */
#include "files.h"
#include "walk.h"

#include <inttypes.h>
#include <string.h>

static void indent(int depth)
{
    for (int k = 0; k < depth; k++) {
        fwrite("  ", 1, 2, stdout);
    }
}

static void hexadecimal(const uint8_t *data, uint32_t length)
{
    static const char digits[] = "0123456789abcdef";
    for (uint32_t k = 0; k < length; k++) {
        putchar_unlocked(digits[data[k] >> 4]);
        putchar_unlocked(digits[data[k] & 15]);
    }
}

static void quoted(const char *text, uint32_t length)
{
    uint32_t from = 0;
    putchar_unlocked('"');
    for (uint32_t k = 0; k < length; k++) {
        uint8_t byte = (uint8_t)text[k];
        if (byte >= 0x20 && byte != 0x7f && byte != '"' && byte != '\\') {
            continue;
        }
        fwrite(text + from, 1, k - from, stdout);
        if (byte == '"' || byte == '\\') {
            putchar_unlocked('\\');
            putchar_unlocked(byte);
        } else {
            printf("\\x%02x", byte);
        }
        from = k + 1;
    }
    fwrite(text + from, 1, length - from, stdout);
    putchar_unlocked('"');
}

static bool dump_elements(bson_iter_t *iter, int depth);

static bool dump_inner(bson_iter_t *iter, int depth, const char *word)
{
    bson_iter_t inner;
    uint32_t length;
    const uint8_t *data;
    if (bson_iter_type(iter) == BSON_TYPE_ARRAY) {
        bson_iter_array(iter, &length, &data);
    } else {
        bson_iter_document(iter, &length, &data);
    }
    printf("%s %" PRIu32 "\n", word, length);
    return bson_iter_recurse(iter, &inner) && dump_elements(&inner, depth + 1);
}

static bool dump_value(bson_iter_t *iter, int depth)
{
    uint32_t length;
    switch (bson_iter_type(iter)) {
    case BSON_TYPE_DOUBLE: {
        double value = bson_iter_double(iter);
        uint8_t data[8];
        memcpy(data, &value, 8);
        fputs("double ", stdout);
        hexadecimal(data, 8);
        break;
    }
    case BSON_TYPE_UTF8: {
        const char *text = bson_iter_utf8(iter, &length);
        if (!bson_utf8_validate(text, length, true)) {
            return false;
        }
        fputs("string ", stdout);
        quoted(text, length);
        break;
    }
    case BSON_TYPE_DOCUMENT:
        return dump_inner(iter, depth, "document");
    case BSON_TYPE_ARRAY:
        return dump_inner(iter, depth, "array");
    case BSON_TYPE_BINARY: {
        bson_subtype_t subtype;
        const uint8_t *data;
        bson_iter_binary(iter, &subtype, &length, &data);
        printf("binary %02x %" PRIu32, subtype, length);
        if (length > 0) {
            putchar_unlocked(' ');
            hexadecimal(data, length);
        }
        break;
    }
    case BSON_TYPE_OID:
        fputs("objectid ", stdout);
        hexadecimal(bson_iter_oid(iter)->bytes, 12);
        break;
    case BSON_TYPE_BOOL:
        fputs(bson_iter_bool(iter) ? "boolean true" : "boolean false", stdout);
        break;
    case BSON_TYPE_DATE_TIME:
        printf("datetime %" PRId64, bson_iter_date_time(iter));
        break;
    case BSON_TYPE_NULL:
        fputs("null", stdout);
        break;
    case BSON_TYPE_INT32:
        printf("int32 %" PRId32, bson_iter_int32(iter));
        break;
    case BSON_TYPE_INT64:
        printf("int64 %" PRId64, bson_iter_int64(iter));
        break;
    default:
        /* The streams have no other kind. */
        return false;
    }
    putchar_unlocked('\n');
    return true;
}

static bool dump_elements(bson_iter_t *iter, int depth)
{
    while (bson_iter_next(iter)) {
        const char *key = bson_iter_key(iter);
        uint32_t length = bson_iter_key_len(iter);
        if (!bson_utf8_validate(key, length, false)) {
            return false;
        }
        indent(depth);
        quoted(key, length);
        putchar_unlocked(' ');
        if (!dump_value(iter, depth)) {
            return false;
        }
    }
    return iter->err_off == 0;
}

static bool dump_documents(const uint8_t *bytes, size_t size)
{
    while (size > 0) {
        bson_t document;
        bson_iter_t iter;
        uint32_t length = begin_document(bytes, size, &document, &iter);
        if (length == 0) {
            return false;
        }
        printf("document %" PRIu32 "\n", length);
        if (!dump_elements(&iter, 1)) {
            return false;
        }
        bytes += length;
        size -= length;
    }
    return true;
}

static bool json_documents(const uint8_t *bytes, size_t size)
{
    while (size > 0) {
        bson_t document;
        bson_iter_t iter;
        size_t written;
        uint32_t length = begin_document(bytes, size, &document, &iter);
        char *text = length == 0 ? NULL : bson_as_canonical_extended_json(&document, &written);
        if (!text) {
            return false;
        }
        fwrite(text, 1, written, stdout);
        putchar_unlocked('\n');
        bson_free(text);
        bytes += length;
        size -= length;
    }
    return true;
}

static bool bson_of_lines(const uint8_t *bytes, size_t size)
{
    while (size > 0) {
        const uint8_t *end = memchr(bytes, '\n', size);
        size_t length = end ? (size_t)(end - bytes) : size;
        bson_error_t error;
        bson_t *document = bson_new_from_json(bytes, (ssize_t)length, &error);
        if (!document) {
            fprintf(stderr, "%s\n", error.message);
            return false;
        }
        fwrite(bson_get_data(document), 1, document->len, stdout);
        bson_destroy(document);
        bytes += end ? length + 1 : length;
        size -= end ? length + 1 : length;
    }
    return true;
}

static int wrote(bool all)
{
    return all && fflush(stdout) == 0 ? 0 : 1;
}

int main(int count, char **words)
{
    struct sums sums = {0, 0, 0};
    size_t size;
    uint8_t *bytes;
    if (count != 3) {
        return 2;
    }
    bytes = read_whole(words[2], &size);
    setvbuf(stdout, NULL, _IOFBF, 1 << 16);
    if (strcmp(words[1], "dump") == 0) {
        return wrote(dump_documents(bytes, size));
    }
    if (strcmp(words[1], "json") == 0) {
        return wrote(json_documents(bytes, size));
    }
    if (strcmp(words[1], "bson") == 0) {
        return wrote(bson_of_lines(bytes, size));
    }
    if (!walk_documents(bytes, size, &sums)) {
        return 1;
    }
    printf("%" PRIu64 " documents, %" PRIu64 " elements, %" PRIu64 " bytes\n", sums.documents, sums.elements, sums.bytes);
    return 0;
}
