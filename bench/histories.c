// What `benches` times of histories, over a plain list of places: prints the same lines, with the same sums.
#include <inttypes.h>
#include <stdint.h>
#include <stdio.h>
#include <stdlib.h>
#include <time.h>

enum { PLACES = 262144, WORDS = PLACES / 64, SIZE = 10000, CALLS = 16 };

// Tells the compiler that memory may have changed, so that no call is left out or moved out of its loop.
#define BARRIER __asm__ volatile("" ::: "memory")
#define KERNEL __attribute__((noinline))

// The two places of each commit.
typedef struct { uint32_t *places; size_t len, room; } history;

static uint32_t next_random(uint32_t x) {
    x ^= x << 13;
    x ^= x >> 17;
    return x ^ x << 5;
}

static KERNEL void push(history *h, uint32_t a, uint32_t b) {
    if (h->len + 2 > h->room) {
        h->room = h->room ? 2 * h->room : 8;
        h->places = realloc(h->places, h->room * sizeof *h->places);
        if (!h->places) exit(1);
    }
    h->places[h->len++] = a;
    h->places[h->len++] = b;
}

// The bitmap after all commits: each place is changed, one after another.
static KERNEL uint64_t *at_end(const history *h) {
    uint64_t *words = calloc(WORDS, 8);
    if (!words) exit(1);
    for (size_t i = 0; i < h->len; i++) words[h->places[i] / 64] ^= (uint64_t)1 << (h->places[i] % 64);
    return words;
}

static uint64_t count_at_end(const history *h) {
    uint64_t *words = at_end(h), total = 0;
    for (int i = 0; i < WORDS; i++) total += (uint64_t)__builtin_popcountll(words[i]);
    free(words);
    BARRIER;
    return total;
}

static uint64_t now(void) {
    struct timespec t;
    clock_gettime(CLOCK_MONOTONIC, &t);
    return (uint64_t)t.tv_sec * 1000000000u + (uint64_t)t.tv_nsec;
}

static uint64_t least(uint64_t a, uint64_t b) { return a < b ? a : b; }

static void tell(const char *work, uint64_t nanoseconds, uint64_t calls, uint64_t sum, const char *what) {
    uint64_t tenths = nanoseconds * 10 / calls;
    printf("commit_history %s %d deltas: %" PRIu64 ".%" PRIu64 " ns a call, sum %" PRIu64 ", %s\n", work, SIZE, tenths / 10, tenths % 10, sum,
           what);
}

int main(int words, char **word) {
    int rounds = words > 1 ? atoi(word[1]) : 1;
    uint64_t pushes = UINT64_MAX, ats = UINT64_MAX, pushed = 0, seen = 0;
    for (int round = 0; round < rounds; round++) {
        history h = {0};
        uint32_t x = 2463534242u;
        uint64_t start = now();
        for (int i = 0; i < SIZE; i++) {
            uint32_t left = next_random(x);
            x = next_random(left);
            push(&h, left % PLACES, x % PLACES);
        }
        pushes = least(pushes, now() - start);
        pushed += h.len / 2;

        start = now();
        for (int call = 0; call < CALLS; call++) seen += count_at_end(&h);
        ats = least(ats, now() - start);
        free(h.places);
    }
    tell("push", pushes, SIZE, pushed, "a list of the places of all commits in C");
    tell("at", ats, CALLS, seen, "a change of each place of all commits in C");
    return 0;
}
