// Limits each read of a program to PIECE bytes (LD_PRELOAD).
#define _GNU_SOURCE
#include <dlfcn.h>
#include <stdlib.h>
#include <unistd.h>

ssize_t read(int file, void *bytes, size_t count) {
    static ssize_t (*next)(int, void *, size_t);
    static size_t piece;
    if (!next) {
        next = (ssize_t (*)(int, void *, size_t)) dlsym(RTLD_NEXT, "read");
        const char *words = getenv("PIECE");
        piece = words ? strtoul(words, NULL, 10) : count;
    }
    return next(file, bytes, count < piece ? count : piece);
}
