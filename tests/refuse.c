/* Loaded before the C library (LD_PRELOAD), it makes requests for memory fail: the one with number REFUSE_AT, counted
   from 1, and with REFUSE_REST all later ones. The file REFUSE_COUNT holds the number of requests. */
#include "refusing.h"

static unsigned long at, *seen;
static int rest;

__attribute__((constructor)) static void begin(void) {
    const char *number = getenv("REFUSE_AT");
    if (!number) _exit(99);
    at = strtoul(number, NULL, 10);
    rest = getenv("REFUSE_REST") != NULL;
    seen = map_numbers(getenv("REFUSE_COUNT"), 1);
}

/* Requests before the constructor are the loader's own. They are not counted and do not fail. */
static int is_refused(void) {
    unsigned long number = seen ? __atomic_add_fetch(seen, 1, __ATOMIC_SEQ_CST) : 0;
    return number != 0 && (rest ? number >= at : number == at);
}
