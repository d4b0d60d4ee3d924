// Preloaded into a program, it refuses one of its allocations: the one whose number, from 1, is in REFUSE. With 0 it
// refuses none, and writes to standard error how many there were.
#include "preload.h"
#include <stdio.h>

static unsigned long made, refused;

static void *(*real_malloc)(size_t);
static void *(*real_realloc)(void *, size_t);

__attribute__((constructor)) static void start(void) {
    real_malloc = (void *(*)(size_t))dlsym(RTLD_NEXT, "malloc");
    real_realloc = (void *(*)(void *, size_t))dlsym(RTLD_NEXT, "realloc");
    const char *number = getenv("REFUSE");
    refused = number ? strtoul(number, NULL, 10) : 0;
    made = 0;
}

__attribute__((destructor)) static void end(void) {
    if (refused == 0) fprintf(stderr, "allocations: %lu\n", made);
}

void *malloc(size_t size) {
    if (!real_malloc) start();
    return ++made == refused ? NULL : real_malloc(size);
}

void *realloc(void *old, size_t size) {
    if (!real_realloc) start();
    return ++made == refused ? NULL : real_realloc(old, size);
}
