/* Loaded before the C library (LD_PRELOAD), it makes reads and writes of a program fail or stop short. Reads of any
   file except standard input and the list of the process's limits give at most READ_MOST bytes, and read number READ_FAILS, counted from 1, fails. Before
   read number CUT_AT the file CUT_FILE is cut to CUT_TO bytes. Writes to standard output take at most WRITE_MOST bytes,
   and write number WRITE_FAILS fails. With INTERRUPTED each read and each write of any file is first interrupted that
   many times; interruptions do not count. The file ENDS_COUNT holds the number of reads, of writes and of bytes
   read. */
#define _GNU_SOURCE
#include "../shims.h"
#include <dlfcn.h>
#include <stdio.h>
#include <string.h>

typedef ssize_t (*Read)(int, void *, size_t);
typedef ssize_t (*Write)(int, const void *, size_t);

static Read next_read;
static Write next_write;
static unsigned long *seen, read_most, read_fails, cut_at, cut_to, write_most, write_fails;
static unsigned long interrupted, reads_left, writes_left;

static unsigned long number(const char *name, unsigned long other) {
    const char *text = getenv(name);
    return text ? strtoul(text, NULL, 10) : other;
}

__attribute__((constructor)) static void begin(void) {
    next_read = (Read)dlsym(RTLD_NEXT, "read");
    next_write = (Write)dlsym(RTLD_NEXT, "write");
    read_most = number("READ_MOST", -1UL), read_fails = number("READ_FAILS", 0);
    cut_at = number("CUT_AT", 0), cut_to = number("CUT_TO", 0);
    write_most = number("WRITE_MOST", -1UL), write_fails = number("WRITE_FAILS", 0);
    interrupted = number("INTERRUPTED", 0), reads_left = writes_left = interrupted;
    seen = map_numbers(getenv("ENDS_COUNT"), 3);
}

/* Whether a call is interrupted: INTERRUPTED times in a row, and then not. */
static int is_interrupted(unsigned long *left) {
    if (*left == 0) {
        *left = interrupted;
        return 0;
    }
    --*left;
    errno = EINTR;
    return 1;
}

/* Whether the file is the list of the process's limits, which the program reads before it opens files. */
static int lists_limits(int fd) {
    char name[64], path[64];
    snprintf(name, sizeof name, "/proc/self/fd/%d", fd);
    ssize_t length = readlink(name, path, sizeof path - 1);
    if (length < 0) return 0;
    path[length] = 0;
    return strncmp(path, "/proc/", 6) == 0 && strstr(path, "/limits") != NULL;
}

ssize_t read(int fd, void *bytes, size_t count) {
    if (seen && is_interrupted(&reads_left)) return -1;
    if (!seen || fd == 0 || lists_limits(fd)) return next_read ? next_read(fd, bytes, count) : -1;
    seen[0]++;
    if (seen[0] == cut_at && truncate(getenv("CUT_FILE"), cut_to) != 0) _exit(99);
    if (seen[0] == read_fails) {
        errno = EIO;
        return -1;
    }
    ssize_t got = next_read(fd, bytes, count < read_most ? count : read_most);
    if (got > 0) seen[2] += got;
    return got;
}

ssize_t write(int fd, const void *bytes, size_t count) {
    if (seen && is_interrupted(&writes_left)) return -1;
    if (!seen || fd != 1) return next_write ? next_write(fd, bytes, count) : -1;
    seen[1]++;
    if (seen[1] == write_fails) {
        errno = EIO;
        return -1;
    }
    return next_write(fd, bytes, count < write_most ? count : write_most);
}
