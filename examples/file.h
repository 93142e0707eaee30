/* Reads a whole file into memory that ends where its bytes do, so that a sanitizer sees each access behind the last one. */
#ifndef EXAMPLES_FILE_H
#define EXAMPLES_FILE_H

#include <stdint.h>
#include <stdio.h>
#include <stdlib.h>

/* Returns all bytes of the file, or NULL if it can't be read or memory runs out. The caller frees them. */
static uint8_t *read_file(const char *name, size_t *length)
{
    FILE *file = fopen(name, "rb");
    size_t room = 4096;
    uint8_t *bytes = file ? malloc(room) : NULL, *more = bytes;
    *length = 0;
    while (more && (*length += fread(bytes + *length, 1, room - *length, file)) == room) {
        room *= 2;
        more = realloc(bytes, room);
        bytes = more ? more : bytes;
    }
    if (more && !ferror(file)) {
        more = realloc(bytes, *length > 0 ? *length : 1);
        bytes = more ? more : bytes;
    }
    if (!more || ferror(file)) {
        free(bytes);
        bytes = NULL;
    }
    if (file)
        fclose(file);
    return bytes;
}

#endif
