// Makes one allocation of a program fail: the one whose number, from 1, is in the variable REFUSE.
// The library is preloaded into the program (LD_PRELOAD), to test what it does then.
//
// Only programs whose names begin with click_ are affected, so a wrapper around them is not. When
// the allocation fails, a note is written to descriptor 9: `smaller` if the allocation was to make
// a block smaller, else `refused`.
#define _GNU_SOURCE
#include <dlfcn.h>
#include <errno.h>
#include <malloc.h>
#include <stdlib.h>
#include <string.h>
#include <unistd.h>

// The number of allocations up to and including the one to refuse. At 0 no more is refused.
static long left;
static int is_known;

// Counts an allocation, and returns whether it is the one to refuse.
static int refused(const char *what)
{
    if (strncmp(program_invocation_short_name, "click_", 6) != 0) return 0;
    if (!is_known) {
        const char *nth = getenv("REFUSE");
        left = nth ? atol(nth) : 0;
        is_known = 1;
    }
    // Several threads may allocate at the same time.
    if (left > 0 && __atomic_sub_fetch(&left, 1, __ATOMIC_SEQ_CST) == 0) {
        (void)!write(9, what, strlen(what));
        return 1;
    }
    return 0;
}

void *malloc(size_t size)
{
    static void *(*real)(size_t);
    if (!real) real = (void *(*)(size_t))dlsym(RTLD_NEXT, "malloc");
    return refused("refused\n") ? 0 : real(size);
}

void *realloc(void *old, size_t size)
{
    static void *(*real)(void *, size_t);
    if (!real) real = (void *(*)(void *, size_t))dlsym(RTLD_NEXT, "realloc");
    return refused(old && size <= malloc_usable_size(old) ? "smaller\n" : "refused\n") ? 0 : real(old, size);
}

void *aligned_alloc(size_t align, size_t size)
{
    static void *(*real)(size_t, size_t);
    if (!real) real = (void *(*)(size_t, size_t))dlsym(RTLD_NEXT, "aligned_alloc");
    return refused("refused\n") ? 0 : real(align, size);
}

int posix_memalign(void **to, size_t align, size_t size)
{
    static int (*real)(void **, size_t, size_t);
    if (!real) real = (int (*)(void **, size_t, size_t))dlsym(RTLD_NEXT, "posix_memalign");
    return refused("refused\n") ? 12 : real(to, align, size);
}
