/* Shows what a message holds, by views of its bytes.
 *
 *     message FILE [LIMIT]    writes the message's numbers, and the size of each document in it
 *
 * The status is 1 if the file isn't exactly one message, and 2 if it can't be read. LIMIT is 48000000 if it is left out. */
#include <inttypes.h>
#include <stdio.h>
#include <stdlib.h>

#include "file.h"
#include "lughemra.h"

/* Writes how many elements each document of a view has. */
static void write_documents(const uint8_t *bytes, size_t length, struct lughemra_view left)
{
    struct lughemra_view document;
    while (lughemra_next_document(bytes, length, &left, &document)) {
        struct lughemra_first first = lughemra_first(bytes + document.offset, document.length);
        struct lughemra_element element;
        size_t elements = 0;
        while (lughemra_next(bytes + document.offset, document.length, &first.iter, &element))
            elements++;
        printf(" %zu bytes at %zu, %zu elements;", document.length, document.offset, elements);
    }
    printf("\n");
}

static void write_sections(const uint8_t *bytes, size_t length, size_t at)
{
    struct lughemra_section section;
    for (; (section = lughemra_section(bytes, length, at)).next != at; at = section.next) {
        if (section.kind == LUGHEMRA_SECTION_BODY)
            printf("body:");
        else
            printf("sequence %.*s:", (int)section.identifier.length, (const char *)bytes + section.identifier.offset);
        write_documents(bytes, length, section.documents);
    }
    if (section.kind != LUGHEMRA_SECTIONS_END)
        printf("no section at %zu\n", at);
}

int main(int count, char **words)
{
    size_t length = 0;
    uint8_t *bytes = count > 1 ? read_file(words[1], &length) : NULL;
    uint32_t limit = count > 2 ? (uint32_t)strtoul(words[2], NULL, 10) : LUGHEMRA_MAX_LIMIT;
    struct lughemra_message_parts parts;

    if (bytes == NULL)
        return 2;
    parts = lughemra_message_parts(bytes, length, limit);
    if (parts.fault.number != 0) {
        printf("fault %" PRIu32 " %s at %zu", parts.fault.number, lughemra_message_fault_name(parts.fault.number),
               parts.fault.offset);
        if (parts.fault.number == LUGHEMRA_MSG_DOCUMENT)
            printf(": %" PRIu32 " %s at %zu", parts.document_fault.number,
                   lughemra_document_fault_name(parts.document_fault.number), parts.document_fault.offset);
        printf("\n");
        free(bytes);
        return 1;
    }
    printf("message %" PRId32 " to %" PRId32 ", flags %08" PRIx32 "%s%s\n", parts.id, parts.response_to, parts.flag_bits,
           parts.more_to_come ? ", more to come" : "", parts.exhaust_allowed ? ", exhaust allowed" : "");
    write_sections(bytes, length, parts.sections);
    free(bytes);
    return 0;
}
