/* What the Rattle kit has compiled for x86-64 alone, for ARM: the C functions of the kit that the program and the
 * library call. Their contracts are the kit's (libc/src/heap.rt and os/src/c.rt there), and nothing proves that these
 * bodies meet them: docs/TRUST.md counts this file. Compiled with gcc, for a little-endian 64-bit processor and glibc:
 *
 *     aarch64-linux-gnu-gcc -std=c11 -O2 -fPIC -c arm64/kit.c
 */
#include <errno.h>
#include <stdbool.h>
#include <stddef.h>
#include <stdlib.h>
#include <sys/types.h>

/* The answer of what asks for memory. If `ok`, `p` is the start of a block of its own, which stays until it is given to
 * rattle_dealloc or rattle_realloc. If not, `p` may be any pointer that is not null: nothing is read or written there. */
struct Tried {
    bool ok;
    void *p;
};

static struct Tried tried(void *block) {
    static char no_block;
    return (struct Tried){.ok = block != NULL, .p = block != NULL ? block : &no_block};
}

/* A block of no bytes is a block too: it has a start of its own, and is given back. C's malloc and realloc don't promise
 * that of 0 bytes (realloc frees), so such a block gets one byte. */
static size_t at_least_one(size_t bytes) {
    return bytes > 0 ? bytes : 1;
}

/* A block of `bytes` bytes, fewer than 2^63, whose start is a multiple of `align`. `align` divides 16, and glibc starts
 * each block at a multiple of max_align_t's alignment, so there is nothing to do for it. */
_Static_assert(_Alignof(max_align_t) % 16 == 0, "a block of malloc starts at a multiple of 16");
struct Tried rattle_alloc(size_t bytes, size_t align) {
    (void)align;
    return tried(malloc(at_least_one(bytes)));
}

/* The block at `p`, of the two above, becomes one of `bytes` bytes, at `p` or elsewhere, aligned as before. Its first
 * `kept` bytes stay, which are no more than it has and no more than `bytes`; realloc keeps all that fit. Where it fails
 * the block is as it was. */
struct Tried rattle_realloc(void *p, size_t kept, size_t bytes, size_t align) {
    (void)kept;
    (void)align;
    return tried(realloc(p, at_least_one(bytes)));
}

/* Takes a block of the two above back. */
void rattle_dealloc(void *p) {
    free(p);
}

/* Why the last call of the C library failed, in this thread; and sets it. */
int rattle_errno(void) {
    return errno;
}

void rattle_set_errno(int error) {
    errno = error;
}

/* The words of the command line, the program's name first. glibc gives them to each function of .init_array, before main
 * and also where this file is part of a shared library. */
static int words;
static char **word;

static void keep_words(int argc, char **argv) {
    words = argc;
    word = argv;
}

__attribute__((section(".init_array"), used)) static void (*const at_start)(int, char **) = keep_words;

/* Puts word number `i`, from 0, without its closing 0 at the start of `to`, which has room for `room` bytes, and answers
 * its length; -1 where there is no such word; -2 where it is longer than `room`, and then its first `room` bytes are in
 * `to`. Of a longer room the rest stays as it was. */
ssize_t rattle_arg(size_t i, unsigned char *to, size_t room) {
    if (words < 0 || i >= (size_t)words || word[i] == NULL) {
        return -1;
    }
    const char *from = word[i];
    size_t at = 0;
    while (from[at] != '\0') {
        if (at == room) {
            return -2;
        }
        to[at] = (unsigned char)from[at];
        at += 1;
    }
    return (ssize_t)at;
}
