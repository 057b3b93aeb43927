// Refuses the allocation whose number REFUSE_ALLOCATION gives, counted from 1. If there is such an allocation, it makes
// the file that REFUSED_FILE names. Load it with LD_PRELOAD.
#define _GNU_SOURCE
#include <dlfcn.h>
#include <fcntl.h>
#include <stdlib.h>
#include <unistd.h>

static long wanted(void) {
    static long number = -1;
    if (number < 0) {
        const char *given = getenv("REFUSE_ALLOCATION");
        number = given ? atol(given) : 0;
    }
    return number;
}

static int refused(void) {
    static long count;
    if (++count != wanted()) {
        return 0;
    }
    const char *refused_file = getenv("REFUSED_FILE");
    if (refused_file) {
        int file = open(refused_file, O_WRONLY | O_CREAT | O_TRUNC, 0600);
        if (file >= 0) {
            close(file);
        }
    }
    return 1;
}

void *malloc(size_t size) {
    static void *(*next)(size_t);
    if (!next) {
        next = (void *(*)(size_t))dlsym(RTLD_NEXT, "malloc");
    }
    return refused() ? NULL : next(size);
}

void *realloc(void *old, size_t size) {
    static void *(*next)(void *, size_t);
    if (!next) {
        next = (void *(*)(void *, size_t))dlsym(RTLD_NEXT, "realloc");
    }
    return refused() ? NULL : next(old, size);
}

int posix_memalign(void **out, size_t align, size_t size) {
    static int (*next)(void **, size_t, size_t);
    if (!next) {
        next = (int (*)(void **, size_t, size_t))dlsym(RTLD_NEXT, "posix_memalign");
    }
    return refused() ? 12 : next(out, align, size);
}

void *aligned_alloc(size_t align, size_t size) {
    static void *(*next)(size_t, size_t);
    if (!next) {
        next = (void *(*)(size_t, size_t))dlsym(RTLD_NEXT, "aligned_alloc");
    }
    return refused() ? NULL : next(align, size);
}
