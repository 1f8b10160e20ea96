// Counts the allocations of a program, and writes their number to descriptor 9 when it ends
// (LD_PRELOAD).
#define _GNU_SOURCE
#include <dlfcn.h>
#include <stdio.h>
#include <stdlib.h>
#include <unistd.h>

static long count;

// Several threads may allocate at the same time.
static void note(void) { __atomic_add_fetch(&count, 1, __ATOMIC_SEQ_CST); }

void *malloc(size_t size)
{
    static void *(*real)(size_t);
    if (!real) real = (void *(*)(size_t))dlsym(RTLD_NEXT, "malloc");
    note();
    return real(size);
}

void *realloc(void *old, size_t size)
{
    static void *(*real)(void *, size_t);
    if (!real) real = (void *(*)(void *, size_t))dlsym(RTLD_NEXT, "realloc");
    note();
    return real(old, size);
}

void *aligned_alloc(size_t align, size_t size)
{
    static void *(*real)(size_t, size_t);
    if (!real) real = (void *(*)(size_t, size_t))dlsym(RTLD_NEXT, "aligned_alloc");
    note();
    return real(align, size);
}

int posix_memalign(void **to, size_t align, size_t size)
{
    static int (*real)(void **, size_t, size_t);
    if (!real) real = (int (*)(void **, size_t, size_t))dlsym(RTLD_NEXT, "posix_memalign");
    note();
    return real(to, align, size);
}

// The program ends by _exit, so destructors are not called.
void _exit(int status)
{
    void (*real)(int) = (void (*)(int))dlsym(RTLD_NEXT, "_exit");
    dprintf(9, "%ld\n", count);
    real(status);
    __builtin_unreachable();
}
