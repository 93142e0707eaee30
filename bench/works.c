/* Measures what a library of bench/ does with a message.
 *
 *     works FILE ROUNDS (WHAT NUMBER TIMES)..
 *
 * does each so many times in each round, in turn, with the first message of the file, and prints the least processor time of
 * each, in nanoseconds. TABLE is the header that names the works, "peers.h" or "worlds.h".
 */
#define _POSIX_C_SOURCE 199309L
#include TABLE

#include <inttypes.h>

/* How many works are measured at most. */
#define MOST 16

static uint64_t spent(char **words, const uint8_t *message, size_t length)
{
    work *work = work_of(words[0]);
    int32_t number = atoi(words[1]), times = atoi(words[2]);
    uint64_t start = processor_time();
    bool good = work(message, length, number, times);
    uint64_t end = processor_time();
    require(good);
    return end - start;
}

int main(int count, char **words)
{
    uint64_t times[MOST];
    int works = (count - 3) / 3;
    size_t size, length;
    uint8_t *bytes;
    if (works < 1 || works > MOST) {
        return 2;
    }
    bytes = read_whole(words[1], &size);
    length = first_length(bytes, size);
    memset(times, 0xff, sizeof times);
    for (int round = atoi(words[2]); round > 0; round--) {
        for (int i = 0; i < works; i++) {
            times[i] = least(times[i], spent(words + 3 + 3 * i, bytes, length));
        }
    }
    for (int i = 0; i < works; i++) {
        printf("%" PRIu64 "\n", times[i]);
    }
    return 0;
}
