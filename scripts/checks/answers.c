/* Answers what scripts/checks/cut-and-altered asks of the C library.
 *
 * Each line of standard input is a word and bytes in hexadecimal digits: `document` and `message` ask whether the bytes are
 * exactly one, `documents` and `messages` what stands in them back to back. Each is asked twice, of two copies of the bytes.
 * The answer is a line of six numbers: how many documents or messages stand there whole, how many bytes they take, then the
 * number and the offset of the first fault, and those of the document's own fault. It is the line "differs" where the second
 * answer isn't the first. */
#include <stdbool.h>
#include <stdio.h>
#include <stdlib.h>
#include <string.h>
#include <sys/types.h>

#include "lughemra.h"

struct answer {
    size_t count;
    size_t bytes_read;
    struct lughemra_fault fault;
    struct lughemra_fault inside;
};

static struct answer one_answer(struct lughemra_fault fault, struct lughemra_fault inside, size_t length)
{
    bool good = fault.number == 0;
    struct answer answer = {good ? 1 : 0, good ? length : 0, fault, inside};
    return answer;
}

static struct answer answer_of(const char *word, const uint8_t *bytes, size_t length)
{
    struct lughemra_fault none = {0, 0};
    if (strcmp(word, "document") == 0)
        return one_answer(lughemra_check_document(bytes, length), none, length);
    if (strcmp(word, "documents") == 0) {
        struct lughemra_documents_check check = lughemra_check_documents(bytes, length);
        struct answer answer = {check.documents, check.bytes_read, check.fault, none};
        return answer;
    }
    if (strcmp(word, "message") == 0) {
        struct lughemra_message_check check = lughemra_check_message(bytes, length, LUGHEMRA_MAX_LIMIT);
        return one_answer(check.fault, check.document_fault, length);
    }
    struct lughemra_messages_check check = lughemra_check_messages(bytes, length, LUGHEMRA_MAX_LIMIT);
    struct answer answer = {check.messages, check.bytes_read, check.fault, check.document_fault};
    return answer;
}

static bool same_fault(struct lughemra_fault a, struct lughemra_fault b)
{
    return a.number == b.number && a.offset == b.offset;
}

static bool same(struct answer a, struct answer b)
{
    return a.count == b.count && a.bytes_read == b.bytes_read && same_fault(a.fault, b.fault) &&
           same_fault(a.inside, b.inside);
}

/* Returns the answer to a copy of the bytes behind so many others, in memory that holds no more. */
static struct answer answer_of_copy(const char *word, const uint8_t *bytes, size_t length, size_t before)
{
    uint8_t *copy = malloc(before + length + (before + length == 0));
    struct answer answer;
    if (!copy) {
        fprintf(stderr, "answers: memory ran out\n");
        exit(2);
    }
    memset(copy, 0xff, before);
    memcpy(copy + before, bytes, length);
    answer = answer_of(word, copy + before, length);
    free(copy);
    return answer;
}

static int digit_of(char digit)
{
    return digit <= '9' ? digit - '0' : digit - 'a' + 10;
}

/* Reads the pairs of digits into the same memory, and returns how many there are. */
static size_t read_digits(char *digits)
{
    size_t length = 0;
    while (digits[2 * length] != '\0' && digits[2 * length] != '\n') {
        digits[length] = (char)(16 * digit_of(digits[2 * length]) + digit_of(digits[2 * length + 1]));
        length++;
    }
    return length;
}

int main(void)
{
    char *line = NULL;
    size_t room = 0;
    while (getline(&line, &room, stdin) > 0) {
        char *digits = strchr(line, ' ') + 1;
        size_t length = read_digits(digits);
        struct answer first, second;
        digits[-1] = '\0';
        first = answer_of_copy(line, (const uint8_t *)digits, length, 0);
        second = answer_of_copy(line, (const uint8_t *)digits, length, 1);
        if (same(first, second))
            printf("%zu %zu %u %zu %u %zu\n", first.count, first.bytes_read, first.fault.number, first.fault.offset,
                   first.inside.number, first.inside.offset);
        else
            printf("differs\n");
    }
    free(line);
    return 0;
}
