/* Requests for memory of which some fail: those for which `is_refused`, defined by whoever includes this file, is
   true. */
#include "shims.h"

static int is_refused(void);

static int fails(void) {
    if (!is_refused()) return 0;
    errno = ENOMEM;
    return 1;
}

void *malloc(size_t size) { return fails() ? NULL : __libc_malloc(size); }
void *calloc(size_t count, size_t size) { return fails() ? NULL : __libc_calloc(count, size); }
void *realloc(void *old, size_t size) { return fails() ? NULL : __libc_realloc(old, size); }
void *aligned_alloc(size_t align, size_t size) { return fails() ? NULL : __libc_memalign(align, size); }

int posix_memalign(void **out, size_t align, size_t size) {
    void *block = fails() ? NULL : __libc_memalign(align, size);
    if (block == NULL) return ENOMEM;
    *out = block;
    return 0;
}
