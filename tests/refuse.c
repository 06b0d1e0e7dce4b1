/*
 * Preloaded into a program, refuses one of its allocations: the one whose number REFUSE gives, counted from 1. With
 * REFUSE_REST set, it refuses all later ones too: a growth that was refused may ask for less. Where ALLOCATIONS names a
 * file, the number of all of them is written there at the end. With MARKED set, only those between the first and the
 * second write to standard error are counted.
 */
#define _GNU_SOURCE
#include <dlfcn.h>
#include <errno.h>
#include <fcntl.h>
#include <stdio.h>
#include <stdlib.h>
#include <unistd.h>

static long count;

__attribute__((destructor)) static void tell(void) {
    const char *name = getenv("ALLOCATIONS");
    char text[32];
    int length = snprintf(text, sizeof text, "%ld\n", count);
    int file = name ? open(name, O_WRONLY | O_CREAT | O_TRUNC, 0644) : -1;
    if (file >= 0 && write(file, text, (size_t)length) != length)
        unlink(name);
}

/* How often standard error was written to. */
static int marks;

static int refused(void) {
    static long wanted = -1;
    static int is_marked;
    static int with_rest;
    if (wanted < 0) {
        const char *text = getenv("REFUSE");
        wanted = text ? atol(text) : 0;
        is_marked = getenv("MARKED") != NULL;
        with_rest = getenv("REFUSE_REST") != NULL;
    }
    if (is_marked && marks != 1)
        return 0;
    count++;
    if (wanted == 0 || count < wanted || (count > wanted && !with_rest))
        return 0;
    errno = ENOMEM;
    return 1;
}

void *malloc(size_t size) {
    static void *(*next)(size_t);
    if (!next)
        next = (void *(*)(size_t))dlsym(RTLD_NEXT, "malloc");
    return refused() ? NULL : next(size);
}

void *realloc(void *old, size_t size) {
    static void *(*next)(void *, size_t);
    if (!next)
        next = (void *(*)(void *, size_t))dlsym(RTLD_NEXT, "realloc");
    return refused() ? NULL : next(old, size);
}

int posix_memalign(void **at, size_t alignment, size_t size) {
    static int (*next)(void **, size_t, size_t);
    if (!next)
        next = (int (*)(void **, size_t, size_t))dlsym(RTLD_NEXT, "posix_memalign");
    return refused() ? ENOMEM : next(at, alignment, size);
}

void *aligned_alloc(size_t alignment, size_t size) {
    static void *(*next)(size_t, size_t);
    if (!next)
        next = (void *(*)(size_t, size_t))dlsym(RTLD_NEXT, "aligned_alloc");
    return refused() ? NULL : next(alignment, size);
}

ssize_t write(int file, const void *bytes, size_t size) {
    static ssize_t (*next)(int, const void *, size_t);
    if (!next)
        next = (ssize_t (*)(int, const void *, size_t))dlsym(RTLD_NEXT, "write");
    marks += file == STDERR_FILENO;
    return next(file, bytes, size);
}

/* The C library's other name of it. */
ssize_t __write(int file, const void *bytes, size_t size) {
    return write(file, bytes, size);
}
