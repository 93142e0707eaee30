/* Checks what stands in a file, by the functions of lughemra.h.
 *
 *     check document [FILE]            exactly one document
 *     check documents [FILE]           documents back to back
 *     check walk [FILE]                the same, and what stands in them
 *     check message [FILE [LIMIT]]     exactly one message
 *     check messages [FILE [LIMIT]]    messages back to back
 *     check front [FILE [LIMIT]]       what stands in front, where more bytes may follow
 *     check parts [FILE [LIMIT]]       the numbers of exactly one message
 *     check write [FILE [LIMIT]]       the same message, written anew with its body first
 *     check dump [FILE]                the text of exactly one document
 *     check json [FILE]                the same as canonical Extended JSON
 *     check relaxed [FILE]             the same as relaxed Extended JSON
 *     check pickle [FILE]              the same as a pickle of Python
 *     check canonical [FILE]           the canonical form of exactly one document
 *     check version
 *
 * writes a line that tells what stands there whole, and a line for the first fault, if there is one. The status is 1
 * then. Where FILE is left out, the input is empty, at a null pointer. LIMIT is 48000000 if it is left out. */
#include <inttypes.h>
#include <stdio.h>
#include <stdlib.h>
#include <string.h>

#include "file.h"
#include "lughemra.h"

/* Ends the program with a line on standard error. */
static void fail(const char *what)
{
    fprintf(stderr, "check: %s\n", what);
    exit(2);
}

/* Writes the line of a document's fault, if there is one, and returns the program's status. */
static int write_document_fault(struct lughemra_fault fault)
{
    if (fault.number == 0)
        return 0;
    printf("fault %" PRIu32 " %s at %zu\n", fault.number, lughemra_document_fault_name(fault.number), fault.offset);
    return 1;
}

/* Writes the line of a message's fault, if there is one, and returns the program's status. */
static int write_message_fault(struct lughemra_fault fault, struct lughemra_fault inside)
{
    if (fault.number == 0)
        return 0;
    printf("fault %" PRIu32 " %s at %zu", fault.number, lughemra_message_fault_name(fault.number), fault.offset);
    if (fault.number == LUGHEMRA_MSG_DOCUMENT)
        printf(": %" PRIu32 " %s at %zu", inside.number, lughemra_document_fault_name(inside.number), inside.offset);
    printf("\n");
    return 1;
}

static int check_document(const uint8_t *bytes, size_t length)
{
    struct lughemra_fault fault = lughemra_check_document(bytes, length);
    if (fault.number == 0)
        printf("%s document\n", lughemra_is_canonical(bytes, length) ? "canonical" : "other");
    return write_document_fault(fault);
}

static int check_documents(const uint8_t *bytes, size_t length)
{
    struct lughemra_documents_check check = lughemra_check_documents(bytes, length);
    printf("%zu documents, %zu bytes\n", check.documents, check.bytes_read);
    return write_document_fault(check.fault);
}

static int walk_documents(const uint8_t *bytes, size_t length)
{
    struct lughemra_documents_walk walk = lughemra_walk_documents(bytes, length);
    printf("%zu documents, %zu bytes, %zu elements, sizes %zu\n", walk.documents, walk.bytes_read, walk.elements,
           walk.sizes);
    return write_document_fault(walk.fault);
}

static int check_message(const uint8_t *bytes, size_t length, uint32_t limit)
{
    struct lughemra_message_check check = lughemra_check_message(bytes, length, limit);
    if (check.fault.number == 0)
        printf("message\n");
    return write_message_fault(check.fault, check.document_fault);
}

static int check_messages(const uint8_t *bytes, size_t length, uint32_t limit)
{
    struct lughemra_messages_check check = lughemra_check_messages(bytes, length, limit);
    printf("%zu messages, %zu bytes\n", check.messages, check.bytes_read);
    return write_message_fault(check.fault, check.document_fault);
}

static int check_front(const uint8_t *bytes, size_t length, uint32_t limit)
{
    struct lughemra_message_front front = lughemra_message_front(bytes, length, limit);
    if (front.state == LUGHEMRA_FRONT_OPEN)
        printf("open, %zu wanted\n", front.length);
    else if (front.state == LUGHEMRA_FRONT_WHOLE)
        printf("message of %zu\n", front.length);
    return write_message_fault(front.fault, front.document_fault);
}

static int check_parts(const uint8_t *bytes, size_t length, uint32_t limit)
{
    struct lughemra_message_parts parts = lughemra_message_parts(bytes, length, limit);
    if (parts.fault.number == 0)
        printf("%" PRId32 " %" PRId32 " %08" PRIx32 "\n", parts.id, parts.response_to, parts.flag_bits);
    return write_message_fault(parts.fault, parts.document_fault);
}

/* Writes a message anew, its sequences behind its body. */
static int write_message(const uint8_t *bytes, size_t length, uint32_t limit)
{
    struct lughemra_message_parts parts = lughemra_message_parts(bytes, length, limit);
    struct lughemra_message_numbers numbers = {parts.id, parts.response_to, parts.flag_bits};
    struct lughemra_section body;
    struct lughemra_written written;
    size_t at = parts.sections, before, behind;
    uint8_t *room, *sequences;
    if (parts.fault.number != 0)
        return write_message_fault(parts.fault, parts.document_fault);
    room = malloc(length);
    sequences = malloc(length);
    if (!room || !sequences)
        fail("memory ran out");
    while ((body = lughemra_section(bytes, length, at)).kind == LUGHEMRA_SECTION_SEQUENCE)
        at = body.next;
    before = at - parts.sections;
    behind = length - body.next;
    memcpy(sequences, bytes + parts.sections, before);
    memcpy(sequences + before, bytes + body.next, behind);
    written = lughemra_write_message(&numbers, bytes + body.documents.offset, body.documents.length, sequences,
                                     before + behind, limit, room, length);
    if (written.fault.number == LUGHEMRA_NO_MEMORY)
        fail("memory ran out");
    if (written.written)
        fwrite(room, 1, written.length, stdout);
    free(room);
    free(sequences);
    return write_message_fault(written.fault, written.document_fault);
}

/* Writes the text or the form that is asked for into the room. */
static struct lughemra_text text_into(const char *word, const uint8_t *bytes, size_t length, uint8_t *room, size_t size)
{
    if (strcmp(word, "dump") == 0)
        return lughemra_dump(bytes, length, room, size);
    if (strcmp(word, "pickle") == 0)
        return lughemra_pickle(bytes, length, room, size);
    if (strcmp(word, "canonical") == 0)
        return lughemra_canonical(bytes, length, room, size);
    return lughemra_json(bytes, length, strcmp(word, "relaxed") == 0, room, size);
}

/* Writes a text: into 64 bytes, and where that is too little room, into as much as is told. */
static int write_text(const char *word, const uint8_t *bytes, size_t length)
{
    uint8_t few[64], *room = few;
    struct lughemra_text text = text_into(word, bytes, length, few, sizeof few);
    if (text.fault.number == 0 && !text.written) {
        room = malloc(text.length);
        if (!room)
            fail("memory ran out");
        text = text_into(word, bytes, length, room, text.length);
    }
    if (text.fault.number == LUGHEMRA_NO_MEMORY)
        fail("memory ran out");
    fwrite(room, 1, text.length, stdout);
    if (room != few)
        free(room);
    return write_document_fault(text.fault);
}

int main(int count, char **words)
{
    const char *word = count > 1 ? words[1] : "";
    uint32_t limit = count > 3 ? (uint32_t)strtoul(words[3], NULL, 10) : LUGHEMRA_MAX_LIMIT;
    size_t length = 0;
    uint8_t *bytes = count > 2 ? read_file(words[2], &length) : NULL;
    int status = 0;

    if (count > 2 && !bytes)
        fail("the file can't be read, or memory ran out");
    if (strcmp(word, "document") == 0)
        status = check_document(bytes, length);
    else if (strcmp(word, "documents") == 0)
        status = check_documents(bytes, length);
    else if (strcmp(word, "walk") == 0)
        status = walk_documents(bytes, length);
    else if (strcmp(word, "message") == 0)
        status = check_message(bytes, length, limit);
    else if (strcmp(word, "messages") == 0)
        status = check_messages(bytes, length, limit);
    else if (strcmp(word, "front") == 0)
        status = check_front(bytes, length, limit);
    else if (strcmp(word, "parts") == 0)
        status = check_parts(bytes, length, limit);
    else if (strcmp(word, "write") == 0)
        status = write_message(bytes, length, limit);
    else if (strcmp(word, "dump") == 0 || strcmp(word, "json") == 0 || strcmp(word, "relaxed") == 0
             || strcmp(word, "pickle") == 0 || strcmp(word, "canonical") == 0)
        status = write_text(word, bytes, length);
    else if (strcmp(word, "version") == 0)
        printf("%s %d.%d.%d\n", LUGHEMRA_VERSION, LUGHEMRA_VERSION_MAJOR, LUGHEMRA_VERSION_MINOR, LUGHEMRA_VERSION_PATCH);
    else
        fail("the first word is none of those that are told above");
    free(bytes);
    return status;
}
