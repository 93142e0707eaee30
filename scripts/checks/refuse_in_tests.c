/* Linked with tests that run without a proof, by scripts/tools/try-tests --keep: keeps their program, and has it refuse itself an
   allocation. Run by rt to list its tests, the program copies itself to the file KEPT. Run with a number, from 1, in the
   environment as REFUSE, it refuses the allocation of that number, and removes the file that is named there as UNREFUSED. So it
   does what refuse.c does for a proved program. That one can't be loaded here: the program has a malloc of its own, which sees bad
   accesses. */
#include <stddef.h>
#include <stdint.h>
#include <stdio.h>
#include <stdlib.h>
#include <string.h>
#include <sys/mman.h>
#include <unistd.h>

/* What the program's own malloc and realloc hand on to. */
void *___interceptor_malloc(size_t size);
void *___interceptor_realloc(void *old, size_t size);

static long left;

static int is_refused(void)
{
    if (left == 0 || --left > 0)
        return 0;
    const char *file = getenv("UNREFUSED");
    if (file)
        unlink(file);
    return 1;
}

static void *refusing_malloc(size_t size)
{
    return is_refused() ? 0 : ___interceptor_malloc(size);
}

static void *refusing_realloc(void *old, size_t size)
{
    return is_refused() ? 0 : ___interceptor_realloc(old, size);
}

/* Has each call of a function go to another one: rt links no code that defines malloc, so this writes a jump over its first bytes. */
static void lead(void *from, void *to)
{
    size_t page = (size_t)sysconf(_SC_PAGESIZE);
    char *first = (char *)((uintptr_t)from / page * page);
    int32_t distance = (int32_t)((char *)to - ((char *)from + 5));
    if (mprotect(first, 2 * page, PROT_READ | PROT_WRITE | PROT_EXEC))
        abort();
    *(unsigned char *)from = 0xe9;
    memcpy((char *)from + 1, &distance, sizeof distance);
    if (mprotect(first, 2 * page, PROT_READ | PROT_EXEC))
        abort();
}

static void keep(const char *program)
{
    static char bytes[65536];
    /* The folder of KEPT is gone where the kept program lists its tests. */
    FILE *from = fopen(program, "rb"), *to = fopen(KEPT, "wbx");
    size_t count;
    if (!from || !to)
        return;
    while ((count = fread(bytes, 1, sizeof bytes, from)) > 0)
        if (fwrite(bytes, 1, count, to) != count)
            abort();
    if (ferror(from) || fclose(from) || fclose(to))
        abort();
}

__attribute__((constructor)) static void begin(int count, char **words)
{
    const char *number = getenv("REFUSE");
    if (number) {
        left = atol(number);
        lead(malloc, refusing_malloc);
        lead(realloc, refusing_realloc);
    } else if (count == 2 && strcmp(words[1], "--list") == 0) {
        keep(words[0]);
    }
}
