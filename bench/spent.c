/* Runs a command with its output thrown away, and prints what it spent: the processor time in nanoseconds, and the most
 * memory in bytes.
 *
 *     spent ROUNDS COMMAND WORD..
 *
 * takes the least time and the most memory of the rounds. The status is 1 where a run did not end well. It is a program
 * of its own since a process counts the memory of the one that it was forked from.
 */
#include <fcntl.h>
#include <inttypes.h>
#include <stdint.h>
#include <stdio.h>
#include <stdlib.h>
#include <sys/resource.h>
#include <sys/wait.h>
#include <unistd.h>

static uint64_t nanoseconds(struct timeval time)
{
    return (uint64_t)time.tv_sec * 1000000000u + (uint64_t)time.tv_usec * 1000u;
}

int main(int count, char **words)
{
    uint64_t least = UINT64_MAX;
    long most = 0;
    if (count < 3) {
        return 2;
    }
    for (int round = atoi(words[1]); round > 0; round--) {
        struct rusage used;
        int status;
        pid_t child = fork();
        if (child == 0) {
            int null = open("/dev/null", O_WRONLY);
            dup2(null, 1);
            execv(words[2], words + 2);
            _exit(127);
        }
        if (child < 0 || wait4(child, &status, 0, &used) != child || !WIFEXITED(status) || WEXITSTATUS(status) != 0) {
            return 1;
        }
        uint64_t spent = nanoseconds(used.ru_utime) + nanoseconds(used.ru_stime);
        least = spent < least ? spent : least;
        most = used.ru_maxrss > most ? used.ru_maxrss : most;
    }
    printf("%" PRIu64 " %ld\n", least, most * 1024);
    return 0;
}
