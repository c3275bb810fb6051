/* What arm64/kit.c must do at its limits; tests/arm64 runs it with the arguments `three words` and an empty one. */
#undef NDEBUG
#include <assert.h>
#include <errno.h>
#include <stdbool.h>
#include <stdint.h>
#include <string.h>
#include <sys/types.h>

struct Tried {
    bool ok;
    unsigned char *p;
};
struct Tried rattle_alloc(size_t bytes, size_t align);
struct Tried rattle_realloc(void *p, size_t kept, size_t bytes, size_t align);
void rattle_dealloc(void *p);
int rattle_errno(void);
void rattle_set_errno(int error);
ssize_t rattle_arg(size_t i, unsigned char *to, size_t room);

int main(void) {
    /* Blocks of all sizes and alignments, also empty ones, are apart, aligned, and can be freed. */
    struct Tried empty = rattle_alloc(0, 1), other = rattle_alloc(0, 16);
    assert(empty.ok && other.ok && empty.p != other.p);
    for (size_t bytes = 0; bytes < 5000; bytes += bytes / 3 + 1) {
        for (size_t align = 1; align <= 16; align *= 2) {
            struct Tried block = rattle_alloc(bytes, align);
            assert(block.ok && (uintptr_t)block.p % 16 == 0 && block.p != empty.p);
            memset(block.p, 7, bytes);
            /* It grows, shrinks to nothing, and grows again: the kept bytes stay. */
            block = rattle_realloc(block.p, bytes, 3 * bytes + 1000000, align);
            assert(block.ok && (uintptr_t)block.p % 16 == 0);
            for (size_t at = 0; at < bytes; at++) assert(block.p[at] == 7);
            block = rattle_realloc(block.p, 0, 0, align);
            assert(block.ok && block.p != NULL && block.p != empty.p);
            block = rattle_realloc(block.p, 0, 20, align);
            assert(block.ok);
            /* A block that is too large is refused, with a pointer that is not null, and the old block is unchanged. */
            memset(block.p, 9, 20);
            struct Tried refused = rattle_realloc(block.p, 20, SIZE_MAX / 2, align);
            assert(!refused.ok && refused.p != NULL && block.p[0] == 9 && block.p[19] == 9);
            rattle_dealloc(block.p);
        }
    }
    struct Tried refused = rattle_alloc(SIZE_MAX / 2, 8);
    assert(!refused.ok && refused.p != NULL && rattle_errno() == ENOMEM);
    rattle_dealloc(empty.p);
    rattle_dealloc(other.p);

    rattle_set_errno(EINTR);
    assert(errno == EINTR && rattle_errno() == EINTR);

    /* Arguments: whole, of exactly the room, cut, empty, and missing. */
    unsigned char to[13];
    memset(to, 0xee, sizeof to);
    assert(rattle_arg(1, to, 12) == 11 && memcmp(to, "three words\xee", 12) == 0);
    memset(to, 0xee, sizeof to);
    assert(rattle_arg(1, to, 11) == 11 && memcmp(to, "three words\xee", 12) == 0);
    memset(to, 0xee, sizeof to);
    assert(rattle_arg(1, to, 5) == -2 && memcmp(to, "three\xee", 6) == 0);
    assert(rattle_arg(1, to, 0) == -2 && to[0] == 't');
    assert(rattle_arg(2, to, 0) == 0 && rattle_arg(0, to, 0) == -2);
    assert(rattle_arg(3, to, 12) == -1 && rattle_arg(SIZE_MAX, to, 12) == -1);
    return 0;
}
