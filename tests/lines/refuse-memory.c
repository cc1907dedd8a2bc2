// Refuses one of a program's allocations: the one whose number is in REFUSED_ALLOCATION, counted from 1. To be preloaded;
// the C library serves all other allocations.
#define _GNU_SOURCE
#include <dlfcn.h>
#include <stdlib.h>

static long left;

__attribute__((constructor)) static void begin(void) {
    const char *number = getenv("REFUSED_ALLOCATION");
    left = number ? atol(number) : 0;
}

static int is_refused(void) {
    return left > 0 && --left == 0;
}

void *malloc(size_t size) {
    static void *(*next)(size_t);
    if (!next) next = (void *(*)(size_t))dlsym(RTLD_NEXT, "malloc");
    return is_refused() ? NULL : next(size);
}

void *realloc(void *old, size_t size) {
    static void *(*next)(void *, size_t);
    if (!next) next = (void *(*)(void *, size_t))dlsym(RTLD_NEXT, "realloc");
    return is_refused() ? NULL : next(old, size);
}
