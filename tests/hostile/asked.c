/* Loaded before the C library (LD_PRELOAD), it counts the bytes that a program holds. The file ASKED_MOST holds the
   most at one time. */
#include "../shims.h"
#include <malloc.h>

extern void __libc_free(void *block);

static unsigned long held, *most;

__attribute__((constructor)) static void begin(void) {
    most = map_numbers(getenv("ASKED_MOST"), 1);
}

/* The sizes of blocks are counted as the C library rounds them. While a block moves, both its places count. */
static void *taken(void *block) {
    if (block == NULL) return NULL;
    unsigned long size = malloc_usable_size(block);
    unsigned long now = __atomic_add_fetch(&held, size, __ATOMIC_SEQ_CST);
    unsigned long old = most ? __atomic_load_n(most, __ATOMIC_SEQ_CST) : now;
    while (old < now && !__atomic_compare_exchange_n(most, &old, now, 0, __ATOMIC_SEQ_CST, __ATOMIC_SEQ_CST)) {
    }
    return block;
}

static void given(size_t size) { __atomic_sub_fetch(&held, size, __ATOMIC_SEQ_CST); }

void *malloc(size_t size) { return taken(__libc_malloc(size)); }
void *calloc(size_t count, size_t size) { return taken(__libc_calloc(count, size)); }
void *aligned_alloc(size_t align, size_t size) { return taken(__libc_memalign(align, size)); }

void free(void *block) {
    if (block != NULL) given(malloc_usable_size(block));
    __libc_free(block);
}

void *realloc(void *old, size_t size) {
    size_t had = old ? malloc_usable_size(old) : 0;
    void *block = taken(__libc_realloc(old, size));
    if (block != NULL) given(had);
    return block;
}

int posix_memalign(void **out, size_t align, size_t size) {
    void *block = taken(__libc_memalign(align, size));
    if (block == NULL) return ENOMEM;
    *out = block;
    return 0;
}
