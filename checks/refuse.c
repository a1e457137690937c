/* Makes the call number $REFUSED of the allocator fail, counted from 1: for LD_PRELOAD. See refuse_memory.sh. */
#define _GNU_SOURCE
#include <dlfcn.h>
#include <errno.h>
#include <stddef.h>
#include <stdlib.h>

static int refused(void) {
    static unsigned long calls, number;
    if (number == 0) {
        const char *word = getenv("REFUSED");
        number = word ? strtoul(word, NULL, 10) : 0;
    }
    return __atomic_add_fetch(&calls, 1, __ATOMIC_RELAXED) == number;
}

static void *next(const char *name) {
    return dlsym(RTLD_NEXT, name);
}

static void *none(void) {
    errno = ENOMEM;
    return NULL;
}

void *malloc(size_t size) {
    static void *(*real)(size_t);
    if (!real)
        real = (void *(*)(size_t))next("malloc");
    return refused() ? none() : real(size);
}

void *realloc(void *old, size_t size) {
    static void *(*real)(void *, size_t);
    if (!real)
        real = (void *(*)(void *, size_t))next("realloc");
    return refused() ? none() : real(old, size);
}

void *aligned_alloc(size_t alignment, size_t size) {
    static void *(*real)(size_t, size_t);
    if (!real)
        real = (void *(*)(size_t, size_t))next("aligned_alloc");
    return refused() ? none() : real(alignment, size);
}

int posix_memalign(void **to, size_t alignment, size_t size) {
    static int (*real)(void **, size_t, size_t);
    if (!real)
        real = (int (*)(void **, size_t, size_t))next("posix_memalign");
    return refused() ? ENOMEM : real(to, alignment, size);
}

/* dlsym may ask for zeroed memory itself, before the next calloc is known. */
void *calloc(size_t count, size_t size) {
    static void *(*real)(size_t, size_t);
    static char first[4096];
    static size_t used;
    static int asking;
    if (!real && asking) {
        const size_t whole = (count * size + 15) & ~(size_t)15;
        used += whole;
        return used <= sizeof first ? first + used - whole : NULL;
    }
    if (!real) {
        asking = 1;
        real = (void *(*)(size_t, size_t))next("calloc");
        asking = 0;
    }
    return refused() ? none() : real(count, size);
}
