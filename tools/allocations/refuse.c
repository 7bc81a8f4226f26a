/* Refuses the allocation whose number, counted from 1, is REFUSED; all others are the C library's.
   With COUNTED, a name of a file, the number of allocations is written there at the end. */
#define _GNU_SOURCE
#include <dlfcn.h>
#include <stdio.h>
#include <stdlib.h>

static unsigned long count, refused;
static int ready;

static int refuses(void) {
    if (!ready) {
        const char *number = getenv("REFUSED");
        ready = 1;
        refused = number ? strtoul(number, 0, 10) : 0;
    }
    return ++count == refused;
}

void *malloc(size_t size) {
    static void *(*next)(size_t);
    if (!next) next = (void *(*)(size_t))dlsym(RTLD_NEXT, "malloc");
    return refuses() ? 0 : next(size);
}

void *realloc(void *old, size_t size) {
    static void *(*next)(void *, size_t);
    if (!next) next = (void *(*)(void *, size_t))dlsym(RTLD_NEXT, "realloc");
    return refuses() ? 0 : next(old, size);
}

void *aligned_alloc(size_t align, size_t size) {
    static void *(*next)(size_t, size_t);
    if (!next) next = (void *(*)(size_t, size_t))dlsym(RTLD_NEXT, "aligned_alloc");
    return refuses() ? 0 : next(align, size);
}

int posix_memalign(void **out, size_t align, size_t size) {
    static int (*next)(void **, size_t, size_t);
    if (!next) next = (int (*)(void **, size_t, size_t))dlsym(RTLD_NEXT, "posix_memalign");
    return refuses() ? 12 : next(out, align, size);
}

__attribute__((destructor)) static void tell(void) {
    const char *name = getenv("COUNTED");
    unsigned long counted = count;
    if (name) {
        FILE *file = fopen(name, "w");
        if (file) {
            fprintf(file, "%lu\n", counted);
            fclose(file);
        }
    }
}
