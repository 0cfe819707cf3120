/*
 * What the example hosts share: the sizes of texts and tables, memory to lend, and a text read from a file.
 */
#ifndef TEXTS_H
#define TEXTS_H

#include "forkhemit.h"
#include <stdio.h>
#include <stdlib.h>

#define TEXT_LIMIT FORKHEMIT_TEXT_BYTES
#define ROW_WORDS FORKHEMIT_TABLE_WORDS

/* The host's own memory, which it lends call by call. */
static inline void *room(size_t count, size_t size)
{
    void *memory = calloc(count, size);
    if (memory == NULL) {
        fputs("out of memory\n", stderr);
        exit(1);
    }
    return memory;
}

/* A text. A file that cannot be read counts as one byte more than a text may have: the library refuses it with 5. */
static inline size_t read_text(const char *path, uint8_t *text)
{
    FILE *file = fopen(path, "rb");
    if (file == NULL)
        return TEXT_LIMIT + 1;
    size_t length = fread(text, 1, TEXT_LIMIT + 1, file);
    if (ferror(file))
        length = TEXT_LIMIT + 1;
    fclose(file);
    return length;
}

#endif
