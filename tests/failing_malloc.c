// Preloaded into a program: of its allocations that of number FAIL_AT, counted from 1, fails, and no other. The file
// FAILED is then made, so that whoever set FAIL_AT sees whether so many came. It stands on the names of the GNU C library.
#include <errno.h>
#include <fcntl.h>
#include <stddef.h>
#include <stdlib.h>
#include <unistd.h>

void *__libc_malloc(size_t size);
void *__libc_calloc(size_t count, size_t size);
void *__libc_realloc(void *old, size_t size);
void *__libc_memalign(size_t alignment, size_t size);

static long allocations;

// Whether this allocation is the one that fails.
static int fails(void) {
    const char *at = getenv("FAIL_AT");
    if (at == NULL || ++allocations != atol(at)) {
        return 0;
    }
    int made = open(getenv("FAILED"), O_CREAT | O_WRONLY, 0600);
    if (made >= 0) {
        close(made);
    }
    errno = ENOMEM;
    return 1;
}

void *malloc(size_t size) { return fails() ? NULL : __libc_malloc(size); }

void *calloc(size_t count, size_t size) { return fails() ? NULL : __libc_calloc(count, size); }

void *realloc(void *old, size_t size) { return fails() ? NULL : __libc_realloc(old, size); }

void *memalign(size_t alignment, size_t size) { return fails() ? NULL : __libc_memalign(alignment, size); }

void *aligned_alloc(size_t alignment, size_t size) { return memalign(alignment, size); }

int posix_memalign(void **place, size_t alignment, size_t size) {
    void *made = memalign(alignment, size);
    if (made == NULL) {
        return ENOMEM;
    }
    *place = made;
    return 0;
}
