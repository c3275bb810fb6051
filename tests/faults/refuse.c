// Call number REFUSED of malloc and realloc returns NULL, and creates the file REFUSED_AT.
#include <fcntl.h>
#include <stdlib.h>
#include <unistd.h>
extern void *__libc_malloc(size_t), *__libc_realloc(void *, size_t);
static long left = -1;
static int refuse(void) {
    if (left < 0) {
        const char *given = getenv("REFUSED");
        left = given ? atol(given) : 0;
    }
    if (left == 0 || --left > 0) return 0;
    close(open(getenv("REFUSED_AT"), O_CREAT | O_WRONLY, 0600));
    return 1;
}
void *malloc(size_t size) { return refuse() ? 0 : __libc_malloc(size); }
void *realloc(void *old, size_t size) { return refuse() ? 0 : __libc_realloc(old, size); }
