// What `benches` times of pages and segments: prints the same lines, with the same sums.
#include <inttypes.h>
#include <stdint.h>
#include <stdio.h>
#include <stdlib.h>
#include <string.h>
#include <time.h>

enum { PAGE = 4096, HEAD = 16, RECORDS = 262144, PASSES = 1000, LONGER = 256 };

// Tells the compiler that memory may have changed, so that no call is left out or moved out of its loop.
#define BARRIER __asm__ volatile("" ::: "memory")
#define KERNEL __attribute__((noinline))

static int capacity(int fields) { return (PAGE - HEAD) / (8 + 8 * fields); }

static uint8_t *filled(int fields, uint64_t first, int count) {
    uint8_t *page = calloc(1, PAGE);
    if (!page) exit(1);
    uint8_t *at = page + HEAD;
    for (int i = 0; i < count; i++)
        for (int field = 0; field <= fields; field++, at += 8) memcpy(at, &(uint64_t){first + (uint64_t)i}, 8);
    return page;
}

typedef struct { uint64_t key; int64_t values[15]; size_t len; } row;

// Copies the bytes of a record.
static void read_row(const uint8_t *page, size_t fields, size_t slot, row *into) {
    const uint8_t *at = page + HEAD + slot * (8 + 8 * fields);
    memcpy(&into->key, at, 8);
    memcpy(into->values, at + 8, 8 * fields);
    into->len = fields;
}

// The sum of all that is in a page's records, each copied into the same place.
static KERNEL uint64_t sum_of(const uint8_t *page, size_t fields, size_t count, row *into) {
    uint64_t sum = 0;
    for (size_t slot = 0; slot < count; slot++) {
        read_row(page, fields, slot, into);
        sum += into->key;
        for (size_t i = 0; i < into->len; i++) sum += (uint64_t)into->values[i];
    }
    return sum;
}

static uint64_t now(void) {
    struct timespec t;
    clock_gettime(CLOCK_MONOTONIC, &t);
    return (uint64_t)t.tv_sec * 1000000000u + (uint64_t)t.tv_nsec;
}

static uint64_t least(uint64_t a, uint64_t b) { return a < b ? a : b; }

static void tell(const char *work, int size, uint64_t nanoseconds, uint64_t calls, uint64_t sum, const char *what) {
    uint64_t tenths = nanoseconds * 10 / calls;
    printf("%s %d records: %" PRIu64 ".%" PRIu64 " ns a call, sum %" PRIu64 ", %s\n", work, size, tenths / 10, tenths % 10, sum, what);
}

static void time_page(const char *work, int fields, int rounds) {
    int count = capacity(fields);
    uint8_t *page = filled(fields, 0, count);
    uint64_t best = UINT64_MAX, total = 0;
    row into = {0};
    for (int round = 0; round < rounds; round++) {
        uint64_t start = now();
        for (int pass = 0; pass < PASSES; pass++) {
            total += sum_of(page, (size_t)fields, (size_t)count, &into);
            BARRIER;
        }
        best = least(best, now() - start);
    }
    tell(work, count, best, PASSES, total, "a copy of the bytes of each record in C");
    free(page);
}

int main(int words, char **word) {
    int rounds = words > 1 ? atoi(word[1]) : 1;
    time_page("record_page read 2 fields", 2, rounds);
    time_page("record_page read 15 fields", 15, rounds);

    int fields = 2, most = capacity(fields), pages = (RECORDS + most - 1) / most;
    uint8_t **links = malloc((size_t)pages * sizeof *links);
    row into = {0};
    if (!links) return 1;
    for (int at = 0; at < pages; at++) links[at] = filled(fields, (uint64_t)at * (uint64_t)most, at + 1 < pages ? most : RECORDS - at * most);
    uint64_t read = UINT64_MAX, longer = UINT64_MAX, sums = 0, lengths = 0;
    for (int round = 0; round < rounds; round++) {
        uint64_t start = now();
        for (int at = 0; at < pages; at++) {
            sums += sum_of(links[at], (size_t)fields, (size_t)(at + 1 < pages ? most : RECORDS - at * most), &into);
            BARRIER;
        }
        read = least(read, now() - start);

        start = now();
        for (int call = 0; call < LONGER; call++) {
            uint8_t **more = malloc((size_t)pages * sizeof *more), *last = malloc(PAGE);
            if (!more || !last) return 1;
            memcpy(more, links, (size_t)pages * sizeof *more);
            memcpy(last, links[pages - 1], PAGE);
            memcpy(last + HEAD + (size_t)(RECORDS % most) * 24, last + HEAD, 24);
            more[pages - 1] = last;
            BARRIER;
            lengths += RECORDS + 1;
            free(last);
            free(more);
        }
        longer = least(longer, now() - start);
    }
    tell("segment read", RECORDS, read, RECORDS, sums, "the same over a list of pages");
    tell("segment extended", RECORDS, longer, LONGER, lengths, "a copy of a list of plain pointers and of the last page");
    return 0;
}
