/* Measures a reader of messages, an output and the search for repeated names, by bench/stream_bench.rt.in and the C library.
 *
 *     streams read FILE PIECE ROUNDS    of a stream of messages: its check in memory, a reader that is fed pieces of
 *                                       PIECE bytes, and two copies of the bytes
 *     streams send FILE ROUNDS          of a message: an output that is sent byte by byte
 *     streams names FILE ROUNDS         of a message: its check, whose names are sorted
 *     streams pairs FILE ROUNDS         of a message: its check, whose names are compared in pairs
 *     streams own FILE ROUNDS           of a message: its check, and an owned document of its body
 *
 * prints the least processor time of each, in nanoseconds.
 */
#define _POSIX_C_SOURCE 199309L
#include "files.h"
#include "measure.h"
#include "lughemra.h"

#include <inttypes.h>
#include <string.h>

#define LIMIT 48000000

size_t stream_bench_read(const uint8_t *bytes, size_t length, size_t piece);
size_t stream_bench_send(const uint8_t *bytes, size_t length);
bool stream_bench_compare_pairs(const uint8_t *bytes, size_t length);
bool stream_bench_own(const uint8_t *bytes, size_t length);

/* Copies the bytes into memory of their own. Returns the byte in their middle, so that no compiler leaves the copy out. */
static unsigned copy(const uint8_t *bytes, size_t size)
{
    uint8_t *taken = malloc(size);
    unsigned seen;
    require(taken != NULL);
    memcpy(taken, bytes, size);
    seen = ((volatile uint8_t *)taken)[size / 2];
    free(taken);
    return seen;
}

static void measure_read(const uint8_t *bytes, size_t size, size_t piece, int rounds)
{
    uint64_t check = UINT64_MAX, read = UINT64_MAX, copies = UINT64_MAX;
    for (; rounds > 0; rounds--) {
        uint64_t start = processor_time();
        struct lughemra_messages_check checked = lughemra_check_messages(bytes, size, LIMIT);
        uint64_t first = processor_time();
        size_t messages = stream_bench_read(bytes, size, piece);
        uint64_t second = processor_time();
        unsigned seen = copy(bytes, size) + copy(bytes, size);
        uint64_t end = processor_time();
        require(checked.fault.number == 0 && messages == checked.messages && seen == 2u * bytes[size / 2]);
        check = least(check, first - start);
        read = least(read, second - first);
        copies = least(copies, end - second);
    }
    printf("%" PRIu64 " %" PRIu64 " %" PRIu64 "\n", check, read, copies);
}

static bool is_sent(const uint8_t *bytes, size_t size)
{
    return stream_bench_send(bytes, size) == size;
}

static bool is_message(const uint8_t *bytes, size_t size)
{
    return lughemra_check_message(bytes, size, LIMIT).fault.number == 0;
}

static void measure(bool (*call)(const uint8_t *, size_t), const uint8_t *bytes, size_t size, int rounds)
{
    uint64_t spent = UINT64_MAX;
    for (; rounds > 0; rounds--) {
        uint64_t start = processor_time();
        bool good = call(bytes, size);
        uint64_t end = processor_time();
        require(good);
        spent = least(spent, end - start);
    }
    printf("%" PRIu64 "\n", spent);
}

int main(int count, char **words)
{
    size_t size;
    uint8_t *bytes;
    if (count < 4) {
        return 2;
    }
    bytes = read_whole(words[2], &size);
    if (strcmp(words[1], "read") == 0 && count == 5) {
        measure_read(bytes, size, (size_t)atol(words[3]), atoi(words[4]));
    } else if (strcmp(words[1], "send") == 0) {
        measure(is_sent, bytes, size, atoi(words[3]));
    } else if (strcmp(words[1], "names") == 0) {
        measure(is_message, bytes, size, atoi(words[3]));
    } else if (strcmp(words[1], "pairs") == 0) {
        measure(stream_bench_compare_pairs, bytes, size, atoi(words[3]));
    } else if (strcmp(words[1], "own") == 0) {
        measure(stream_bench_own, bytes, size, atoi(words[3]));
    } else {
        return 2;
    }
    return 0;
}
