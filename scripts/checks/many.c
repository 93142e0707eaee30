/* Runs an example over and over in one process, which is built with its main named run_once.
 *
 *     many STATUSES
 *
 * Each line of standard input has the words of one run, between spaces: the name of the program, and what stands behind it; and
 * before them the file that its output goes to. STATUSES gets a line for each run, with its status. */
#include <stdio.h>
#include <stdlib.h>
#include <string.h>

int run_once(int count, char **words);

/* The most words of a run, and the most bytes of a line. */
enum { WORDS = 8, LINE = 4096 };

/* Cuts a line into its words, and returns how many there are. */
static int cut(char *line, char **words)
{
    int count = 0;
    for (char *word = strtok(line, " \n"); word && count < WORDS; word = strtok(NULL, " \n"))
        words[count++] = word;
    words[count] = NULL;
    return count;
}

int main(int count, char **words)
{
    static char line[LINE];
    FILE *statuses = count == 2 ? fopen(words[1], "w") : NULL;
    if (!statuses)
        return 70;
    while (fgets(line, sizeof line, stdin)) {
        char *given[WORDS + 1];
        int many = cut(line, given);
        if (many < 2 || !freopen(given[0], "wb", stdout))
            return 70;
        fprintf(statuses, "%d\n", run_once(many - 1, given + 1));
        fflush(stdout);
        fflush(statuses);
    }
    fclose(statuses);
    return 0;
}
