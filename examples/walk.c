/* Walks over the documents of a file, without copies and without memory of its own, and finds a field.
 *
 *     walk FILE          writes the text that `bsonwire dump FILE` does, or the fault in its place
 *     walk FILE NAME     writes the line of the first element with this name at the top of each document
 *
 * The status is 1 if there is a fault. */
#include <inttypes.h>
#include <stdio.h>
#include <stdlib.h>
#include <string.h>

#include "file.h"
#include "lughemra.h"

/* The deepest that documents may nest. */
#define DEPTH 200

static void write_indent(size_t depth)
{
    while (depth-- > 0)
        fputs("  ", stdout);
}

static void write_hex(const uint8_t *bytes, struct lughemra_view view)
{
    for (size_t k = 0; k < view.length; k++)
        printf("%02x", bytes[view.offset + k]);
}

/* Writes a text between quotes. A quote, a backslash and each control character are escaped. */
static void write_quoted(const uint8_t *bytes, struct lughemra_view view)
{
    putchar('"');
    for (size_t k = 0; k < view.length; k++) {
        uint8_t byte = bytes[view.offset + k];
        if (byte == '"' || byte == '\\')
            printf("\\%c", byte);
        else if (byte < 0x20 || byte == 0x7f)
            printf("\\x%02x", byte);
        else
            putchar(byte);
    }
    putchar('"');
}

/* Writes the word of a kind, and the value's text. */
static void write_text(const char *word, const uint8_t *bytes, const struct lughemra_element *element)
{
    printf(" %s ", word);
    write_quoted(bytes, element->text);
}

/* Writes the word of a kind, and the value's bytes as digits. */
static void write_bytes(const char *word, const uint8_t *bytes, const struct lughemra_element *element)
{
    printf(" %s ", word);
    write_hex(bytes, element->bytes);
}

static void write_binary(const uint8_t *bytes, const struct lughemra_element *element)
{
    printf(" binary %02" PRIx32 " %zu", element->subtype, element->bytes.length);
    if (element->bytes.length > 0)
        putchar(' ');
    write_hex(bytes, element->bytes);
}

static void write_regex(const uint8_t *bytes, const struct lughemra_element *element)
{
    write_text("regex", bytes, element);
    putchar(' ');
    write_quoted(bytes, element->bytes);
}

static void write_pointer(const uint8_t *bytes, const struct lughemra_element *element)
{
    write_text("dbpointer", bytes, element);
    putchar(' ');
    write_hex(bytes, element->bytes);
}

static void write_codescope(const uint8_t *bytes, const struct lughemra_element *element)
{
    write_text("codescope", bytes, element);
    printf(" %zu", element->bytes.length);
}

static void write_value(const uint8_t *bytes, const struct lughemra_element *element)
{
    switch (element->kind) {
    case LUGHEMRA_DOUBLE: write_bytes("double", bytes, element); break;
    case LUGHEMRA_STRING: write_text("string", bytes, element); break;
    case LUGHEMRA_DOCUMENT: printf(" document %zu", element->bytes.length); break;
    case LUGHEMRA_ARRAY: printf(" array %zu", element->bytes.length); break;
    case LUGHEMRA_BINARY: write_binary(bytes, element); break;
    case LUGHEMRA_UNDEFINED: printf(" undefined"); break;
    case LUGHEMRA_OBJECT_ID: write_bytes("objectid", bytes, element); break;
    case LUGHEMRA_BOOL: printf(" boolean %s", element->value.integer ? "true" : "false"); break;
    case LUGHEMRA_DATETIME: printf(" datetime %" PRId64, element->value.integer); break;
    case LUGHEMRA_NULL: printf(" null"); break;
    case LUGHEMRA_REGEX: write_regex(bytes, element); break;
    case LUGHEMRA_DB_POINTER: write_pointer(bytes, element); break;
    case LUGHEMRA_CODE: write_text("code", bytes, element); break;
    case LUGHEMRA_SYMBOL: write_text("symbol", bytes, element); break;
    case LUGHEMRA_CODE_WITH_SCOPE: write_codescope(bytes, element); break;
    case LUGHEMRA_INT32: printf(" int32 %" PRId64, element->value.integer); break;
    case LUGHEMRA_TIMESTAMP:
        printf(" timestamp %" PRIu32 " %" PRIu32, element->value.timestamp.seconds, element->value.timestamp.increment);
        break;
    case LUGHEMRA_INT64: printf(" int64 %" PRId64, element->value.integer); break;
    case LUGHEMRA_DECIMAL128: write_bytes("decimal128", bytes, element); break;
    case LUGHEMRA_MAX_KEY: printf(" maxkey"); break;
    case LUGHEMRA_MIN_KEY: printf(" minkey"); break;
    }
}

static void write_element(const uint8_t *bytes, const struct lughemra_element *element, size_t depth)
{
    write_indent(depth);
    write_quoted(bytes, element->name);
    write_value(bytes, element);
    putchar('\n');
}

/* Returns true if the element holds a document, an array or a scope. */
static bool holds_document(const struct lughemra_element *element)
{
    return element->kind == LUGHEMRA_DOCUMENT || element->kind == LUGHEMRA_ARRAY || element->kind == LUGHEMRA_CODE_WITH_SCOPE;
}

/* Writes the lines of all elements at all depths, and returns the first fault. The iterators of the documents that are
 * open stand on a stack. */
static struct lughemra_fault write_elements(const uint8_t *bytes, size_t length, struct lughemra_iter first)
{
    struct lughemra_iter open[DEPTH];
    struct lughemra_element element;
    size_t depth = 1;
    open[0] = first;
    for (;;) {
        struct lughemra_iter *iter = &open[depth - 1];
        if (lughemra_next(bytes, length, iter, &element)) {
            write_element(bytes, &element, depth);
            if (holds_document(&element))
                open[depth++] = lughemra_enter(iter, &element);
        } else if (element.fault.number != 0 || --depth == 0) {
            return element.fault;
        }
    }
}

/* Writes the text of a document, or the line of the first element with this name. Returns the first fault. */
static struct lughemra_fault write_document(const uint8_t *bytes, size_t length, const char *name)
{
    struct lughemra_first first = lughemra_first(bytes, length);
    struct lughemra_element element;
    if (first.fault.number != 0)
        return first.fault;
    if (name == NULL) {
        printf("document %zu\n", length);
        return write_elements(bytes, length, first.iter);
    }
    if (lughemra_find(bytes, length, name, strlen(name), &first.iter, &element))
        write_element(bytes, &element, 1);
    else if (element.fault.number == 0)
        printf("no %s\n", name);
    return element.fault;
}

/* Returns the length of the document at the front, if it can be one, or all of the bytes. */
static size_t front_length(const uint8_t *bytes, size_t length)
{
    uint32_t told = 0;
    if (length >= 4)
        told = bytes[0] | (uint32_t)bytes[1] << 8 | (uint32_t)bytes[2] << 16 | (uint32_t)bytes[3] << 24;
    return told >= 5 && told <= length ? told : length;
}

int main(int count, char **words)
{
    size_t length = 0;
    uint8_t *bytes = count > 1 ? read_file(words[1], &length) : NULL;
    const char *name = count > 2 ? words[2] : NULL;
    int status = bytes ? 0 : 2;

    for (size_t at = 0; status == 0 && at < length;) {
        size_t size = front_length(bytes + at, length - at);
        struct lughemra_fault fault = write_document(bytes + at, size, name);
        if (fault.number != 0) {
            printf("fault %" PRIu32 " %s at %zu\n", fault.number, lughemra_document_fault_name(fault.number), at + fault.offset);
            status = 1;
        }
        at += size;
    }
    free(bytes);
    return status;
}
