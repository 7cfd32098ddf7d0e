// Loaded before the C library: tells on standard error, each time that the program reads the clock, how often it asked for
// memory since the last time, and for how many bytes in all.
#define _GNU_SOURCE
#include <stddef.h>
#include <stdio.h>
#include <time.h>
#include <unistd.h>
#include <sys/syscall.h>

extern void *__libc_malloc(size_t), *__libc_realloc(void *, size_t);

static unsigned long calls, bytes;

void *malloc(size_t size) {
    calls++;
    bytes += size;
    return __libc_malloc(size);
}

void *realloc(void *old, size_t size) {
    calls++;
    bytes += size;
    return __libc_realloc(old, size);
}

int clock_gettime(clockid_t clock, struct timespec *time) {
    char line[64];
    int length = snprintf(line, sizeof line, "%lu %lu\n", calls, bytes);
    if (write(2, line, (size_t)length) != length) return -1;
    calls = bytes = 0;
    return (int)syscall(SYS_clock_gettime, clock, time);
}
