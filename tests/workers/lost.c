/* Loaded before the C library (LD_PRELOAD), it takes workers away from a program. The program can start only LOST_AFTER
   threads. In all threads except the first, requests for memory fail from number LOST_MEMORY on, counted from 1 over
   these threads together; with LOST_ALONE only that one fails. The file LOST_COUNT holds two numbers: the threads that
   the program tried to start, and the most threads that it had started and not yet joined at one time. */
#define _GNU_SOURCE
#include "../refusing.h"
#include <dlfcn.h>
#include <pthread.h>

typedef int (*Start)(pthread_t *, const pthread_attr_t *, void *(*)(void *), void *);
typedef int (*Join)(pthread_t, void **);

static unsigned long after = -1UL, from = -1UL, uncounted[2], *counted = uncounted, unjoined, asked;
static int alone;
static Start start;
static Join join;

__attribute__((constructor)) static void begin(void) {
    const char *threads = getenv("LOST_AFTER"), *memory = getenv("LOST_MEMORY"), *count = getenv("LOST_COUNT");
    start = (Start)dlsym(RTLD_NEXT, "pthread_create");
    join = (Join)dlsym(RTLD_NEXT, "pthread_join");
    if (threads) after = strtoul(threads, NULL, 10);
    if (memory) from = strtoul(memory, NULL, 10);
    alone = getenv("LOST_ALONE") != NULL;
    if (count) counted = map_numbers(count, 2);
}

int pthread_create(pthread_t *thread, const pthread_attr_t *kind, void *(*body)(void *), void *argument) {
    if (__atomic_fetch_add(&counted[0], 1, __ATOMIC_SEQ_CST) >= after) return EAGAIN;
    unsigned long now = __atomic_add_fetch(&unjoined, 1, __ATOMIC_SEQ_CST);
    unsigned long most = counted[1];
    while (most < now && !__atomic_compare_exchange_n(&counted[1], &most, now, 0, __ATOMIC_SEQ_CST, __ATOMIC_SEQ_CST))
        ;
    int failed = start(thread, kind, body, argument);
    if (failed) __atomic_sub_fetch(&unjoined, 1, __ATOMIC_SEQ_CST);
    return failed;
}

int pthread_join(pthread_t thread, void **result) {
    int failed = join(thread, result);
    if (!failed) __atomic_sub_fetch(&unjoined, 1, __ATOMIC_SEQ_CST);
    return failed;
}

static int is_refused(void) {
    if (from == -1UL || gettid() == getpid()) return 0;
    unsigned long number = __atomic_add_fetch(&asked, 1, __ATOMIC_SEQ_CST);
    return alone ? number == from : number >= from;
}
