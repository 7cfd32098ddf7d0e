// Loaded before the C library: tells on standard error, each time that the program reads the clock, how many bytes it keeps, with
// what the C library adds to each block.
#define _GNU_SOURCE
#include <malloc.h>
#include <stddef.h>
#include <stdio.h>
#include <time.h>
#include <unistd.h>
#include <sys/syscall.h>

extern void *__libc_malloc(size_t), *__libc_calloc(size_t, size_t), *__libc_realloc(void *, size_t), __libc_free(void *);

static long kept;

// The size of a block and of the word before it.
static long size_of(void *block) { return block ? (long)(malloc_usable_size(block) + sizeof(size_t)) : 0; }

void *malloc(size_t size) {
    void *block = __libc_malloc(size);
    kept += size_of(block);
    return block;
}

void *calloc(size_t count, size_t size) {
    void *block = __libc_calloc(count, size);
    kept += size_of(block);
    return block;
}

void *realloc(void *old, size_t size) {
    long before = size_of(old);
    void *block = __libc_realloc(old, size);
    if (block) kept += size_of(block) - before;
    return block;
}

void free(void *block) {
    kept -= size_of(block);
    __libc_free(block);
}

int clock_gettime(clockid_t clock, struct timespec *time) {
    char line[32];
    int length = snprintf(line, sizeof line, "%ld\n", kept);
    if (write(2, line, (size_t)length) != length) return -1;
    return (int)syscall(SYS_clock_gettime, clock, time);
}
