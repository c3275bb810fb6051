// What the callers of the library share: growing texts, files, and rooms that valgrind guards.
#include "../../library/n2kdec.h"
#include <stdio.h>
#include <stdlib.h>
#include <string.h>

struct text {
    uint8_t *bytes;
    size_t size, room;
};

// Ends the trial as failed.
static _Noreturn void fail(const char *what, long number) {
    fprintf(stderr, "%s: %ld\n", what, number);
    exit(1);
}

// A room is a block of exactly its size, so that valgrind sees reads and writes outside it.
static inline uint8_t *block(size_t size) {
    uint8_t *got = malloc(size > 0 ? size : 1);
    if (got == NULL) fail("no memory", (long)size);
    return got;
}

static void append(struct text *text, const uint8_t *bytes, size_t size) {
    if (text->size + size > text->room) {
        text->room = 2 * (text->size + size);
        text->bytes = realloc(text->bytes, text->room);
        if (text->bytes == NULL) fail("no memory", (long)text->room);
    }
    if (size > 0) memcpy(text->bytes + text->size, bytes, size);
    text->size += size;
}

// The bytes of a file.
static struct text file(const char *name) {
    FILE *from = fopen(name, "rb");
    struct text text = {0};
    uint8_t piece[1 << 12];
    size_t size;
    if (from == NULL) fail(name, 0);
    while ((size = fread(piece, 1, sizeof piece, from)) > 0) append(&text, piece, size);
    fclose(from);
    return text;
}

static inline bool same(struct text a, struct text b) {
    return a.size == b.size && (a.size == 0 || memcmp(a.bytes, b.bytes, a.size) == 0);
}
