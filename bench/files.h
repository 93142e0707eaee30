/* A whole file in memory. */
#ifndef BENCH_FILES_H
#define BENCH_FILES_H

#include <stdint.h>
#include <stdio.h>
#include <stdlib.h>

static uint8_t *read_whole(const char *name, size_t *size)
{
    FILE *file = fopen(name, "rb");
    uint8_t *bytes;
    long end;
    if (!file || fseek(file, 0, SEEK_END) != 0 || (end = ftell(file)) < 0) {
        perror(name);
        exit(3);
    }
    rewind(file);
    bytes = malloc((size_t)end + 1);
    if (!bytes || fread(bytes, 1, (size_t)end, file) != (size_t)end) {
        perror(name);
        exit(3);
    }
    fclose(file);
    *size = (size_t)end;
    return bytes;
}

#endif
