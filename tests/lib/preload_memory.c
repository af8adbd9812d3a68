/* Requests for memory, a part of preload.c. The C library's own names do the work. */
#include <errno.h>

#include "preload.h"

extern void *__libc_malloc(size_t);
extern void *__libc_calloc(size_t, size_t);
extern void *__libc_realloc(void *, size_t);
extern void *__libc_memalign(size_t, size_t);

static bool is_refused(void) {
    if (!is_wanted(MEMORY)) return false;
    errno = ENOMEM;
    return true;
}

void *malloc(size_t length) { return is_refused() ? NULL : __libc_malloc(length); }
void *calloc(size_t count, size_t length) { return is_refused() ? NULL : __libc_calloc(count, length); }
void *realloc(void *old, size_t length) { return is_refused() ? NULL : __libc_realloc(old, length); }
void *aligned_alloc(size_t align, size_t length) { return is_refused() ? NULL : __libc_memalign(align, length); }
int posix_memalign(void **into, size_t align, size_t length) {
    if (is_refused()) return ENOMEM;
    *into = __libc_memalign(align, length);
    return *into ? 0 : ENOMEM;
}
