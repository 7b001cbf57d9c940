/* Included by the libraries that tests load before the C library (LD_PRELOAD; shims.py). */
#include <errno.h>
#include <fcntl.h>
#include <stddef.h>
#include <stdlib.h>
#include <sys/mman.h>
#include <unistd.h>

extern void *__libc_malloc(size_t size);
extern void *__libc_calloc(size_t count, size_t size);
extern void *__libc_realloc(void *old, size_t size);
extern void *__libc_memalign(size_t align, size_t size);

/* A new file of `count` numbers of 8 bytes. It is mapped, so it stays right however the process ends. */
static unsigned long *map_numbers(const char *path, size_t count) {
    int fd = path ? open(path, O_RDWR | O_CREAT | O_TRUNC, 0600) : -1;
    if (fd < 0 || ftruncate(fd, count * sizeof(unsigned long)) != 0) _exit(99);
    void *place = mmap(NULL, count * sizeof(unsigned long), PROT_READ | PROT_WRITE, MAP_SHARED, fd, 0);
    if (place == MAP_FAILED) _exit(99);
    close(fd);
    return place;
}
