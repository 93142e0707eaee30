/* Measures in memory, in one process: this library's check and walk, and libbson's walk.
 *
 *     memory FILE ROUNDS
 *
 * prints the least processor time of each, in nanoseconds. The three have to count the same.
 */
#define _POSIX_C_SOURCE 199309L
#include "files.h"
#include "measure.h"
#include "walk.h"
#include "lughemra.h"

#include <inttypes.h>

int main(int count, char **words)
{
    uint64_t check = UINT64_MAX, own_walk = UINT64_MAX, other_walk = UINT64_MAX;
    size_t size;
    uint8_t *bytes;
    if (count != 3) {
        return 2;
    }
    bytes = read_whole(words[1], &size);
    for (int round = atoi(words[2]); round > 0; round--) {
        struct sums sums = {0, 0, 0};
        uint64_t start = processor_time();
        struct lughemra_documents_check checked = lughemra_check_documents(bytes, size);
        uint64_t first = processor_time();
        struct lughemra_documents_walk walked = lughemra_walk_documents(bytes, size);
        uint64_t second = processor_time();
        bool good = walk_documents(bytes, size, &sums);
        uint64_t end = processor_time();
        if (!good || checked.fault.number != 0 || walked.fault.number != 0 || checked.documents != sums.documents
            || walked.documents != sums.documents || walked.elements != sums.elements || walked.sizes != sums.bytes) {
            fprintf(stderr, "memory: the counts differ\n");
            return 1;
        }
        check = least(check, first - start);
        own_walk = least(own_walk, second - first);
        other_walk = least(other_walk, end - second);
    }
    printf("%" PRIu64 " %" PRIu64 " %" PRIu64 "\n", check, own_walk, other_walk);
    return 0;
}
