/* Works that are measured: a header that includes this one names them by WORKS. */
#ifndef BENCH_WORKS_H
#define BENCH_WORKS_H

#include "files.h"
#include "measure.h"

#include <string.h>

typedef bool work(const uint8_t *message, size_t length, int32_t number, int32_t times);

#define DECLARED(word, name) work name;
WORKS(DECLARED)

/* Returns the work of a word that bench/run uses. */
static work *work_of(const char *word)
{
#define ROW(word, name) {#word, name},
    static const struct {
        const char *word;
        work *work;
    } all[] = {WORKS(ROW)};
    for (size_t i = 0; i < sizeof all / sizeof all[0]; i++) {
        if (strcmp(all[i].word, word) == 0) {
            return all[i].work;
        }
    }
    exit(2);
}

/* Returns the length of the message that the file begins with, which its first four bytes tell. */
static size_t first_length(const uint8_t *bytes, size_t size)
{
    size_t length = 0;
    require(size >= 4);
    for (int i = 0; i < 4; i++) {
        length |= (size_t)bytes[i] << (8 * i);
    }
    require(length <= size);
    return length;
}

#endif
