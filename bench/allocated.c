/* Counts the memory that something of bench/peer_bench.rt.in takes.
 *
 *     allocated FILE WHAT NUMBER TIMES
 *
 * does it so many times with the first message of the file, and prints the most bytes that were held at once, and how often
 * memory was taken. The bytes are those that malloc gave, which may be more than were asked for, and 8 of its own each. It is linked
 * with --wrap=malloc, --wrap=realloc and --wrap=free.
 */
#define _POSIX_C_SOURCE 199309L
#include "peers.h"

#include <malloc.h>

/* What malloc keeps in front of each block. */
#define OWN 8

void *__real_malloc(size_t size);
void *__real_realloc(void *block, size_t size);
void __real_free(void *block);

static size_t held, most, taken;

static size_t room_of(void *block)
{
    return block ? malloc_usable_size(block) + OWN : 0;
}

/* Counts a block that took the place of one of this room. */
static void count(size_t before, void *block)
{
    held += room_of(block) - before;
    most = held > most ? held : most;
    taken++;
}

void *__wrap_malloc(size_t size)
{
    void *block = __real_malloc(size);
    count(0, block);
    return block;
}

void *__wrap_realloc(void *old, size_t size)
{
    size_t before = room_of(old);
    void *block = __real_realloc(old, size);
    count(before, block);
    return block;
}

void __wrap_free(void *block)
{
    held -= room_of(block);
    __real_free(block);
}

int main(int words_count, char **words)
{
    size_t size;
    uint8_t *bytes;
    if (words_count != 5) {
        return 2;
    }
    bytes = read_whole(words[1], &size);
    held = most = taken = 0;
    require(work_of(words[2])(bytes, first_length(bytes, size), atoi(words[3]), atoi(words[4])));
    require(held == 0);
    printf("%zu %zu\n", most, taken);
    return 0;
}
