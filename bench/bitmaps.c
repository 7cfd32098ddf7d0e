// What `benches` times of bitmaps, as plain loops over words: prints the same lines, with the same sums.
#include <inttypes.h>
#include <stdint.h>
#include <stdio.h>
#include <stdlib.h>
#include <time.h>

enum { SIZE = 262144, WORDS = SIZE / 64, CALLS = 1000 };

// Tells the compiler that memory may have changed, so that no call is left out or moved out of its loop.
#define BARRIER __asm__ volatile("" ::: "memory")
#define KERNEL __attribute__((noinline))

static KERNEL void xor_words(const uint64_t *from, uint64_t *into, size_t n) {
    for (size_t i = 0; i < n; i++) into[i] ^= from[i];
}

static KERNEL void and_words(const uint64_t *from, uint64_t *into, size_t n) {
    for (size_t i = 0; i < n; i++) into[i] &= from[i];
}

static KERNEL void or_words(const uint64_t *from, uint64_t *into, size_t n) {
    for (size_t i = 0; i < n; i++) into[i] |= from[i];
}

static KERNEL uint64_t count_words(const uint64_t *words, size_t n) {
    uint64_t total = 0;
    for (size_t i = 0; i < n; i++) total += (uint64_t)__builtin_popcountll(words[i]);
    return total;
}

static uint64_t now(void) {
    struct timespec t;
    clock_gettime(CLOCK_MONOTONIC, &t);
    return (uint64_t)t.tv_sec * 1000000000u + (uint64_t)t.tv_nsec;
}

static uint64_t *filled(uint32_t seed) {
    uint64_t *words = calloc(WORDS, 8);
    if (!words) exit(1);
    uint32_t x = seed;
    for (int place = 0; place < SIZE; place++) {
        x ^= x << 13;
        x ^= x >> 17;
        x ^= x << 5;
        if (x % 2 == 1) words[place / 64] |= (uint64_t)1 << (place % 64);
    }
    return words;
}

static uint64_t least(uint64_t a, uint64_t b) { return a < b ? a : b; }

static void tell(const char *work, uint64_t nanoseconds, uint64_t sum) {
    uint64_t tenths = nanoseconds * 10 / CALLS;
    printf("plain_bits %s %d bits: %" PRIu64 ".%" PRIu64 " ns a call, sum %" PRIu64 ", a loop over words in C\n", work, SIZE,
           tenths / 10, tenths % 10, sum);
}

// Each work begins with the same two bitmaps.
static void time_gate(const char *work, void (*gate)(const uint64_t *, uint64_t *, size_t), const uint64_t *from, int rounds) {
    uint64_t best = UINT64_MAX, sum = 0, *into = filled(1234567u);
    for (int round = 0; round < rounds; round++) {
        uint64_t start = now();
        for (int call = 0; call < CALLS; call++) {
            gate(from, into, WORDS);
            BARRIER;
        }
        best = least(best, now() - start);
        sum += count_words(into, WORDS);
    }
    tell(work, best, sum);
}

int main(int words, char **word) {
    int rounds = words > 1 ? atoi(word[1]) : 1;
    const uint64_t *from = filled(2463534242u);
    time_gate("xor_into", xor_words, from, rounds);
    time_gate("and", and_words, from, rounds);
    time_gate("or", or_words, from, rounds);

    uint64_t *into = filled(1234567u), best = UINT64_MAX, sum = 0;
    for (int round = 0; round < rounds; round++) {
        uint64_t start = now();
        for (int call = 0; call < CALLS; call++) {
            into[call % SIZE / 64] |= (uint64_t)1 << (call % SIZE % 64);
            sum += count_words(into, WORDS);
            BARRIER;
        }
        best = least(best, now() - start);
        sum += count_words(into, WORDS);
    }
    tell("count", best, sum);
    return 0;
}
