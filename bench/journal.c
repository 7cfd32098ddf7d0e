/* The same two writes and two syncs as an append of a body of 36 bytes, on a file: journal PATH CALLS ROUNDS.
   It prints the least time of one over the rounds, and the sum over the places behind the rounds. */
#define _GNU_SOURCE
#include <fcntl.h>
#include <stdint.h>
#include <stdio.h>
#include <stdlib.h>
#include <string.h>
#include <time.h>
#include <unistd.h>

enum { BODY = 36, RECORD = 4 + 32 + BODY + 1 };

static uint64_t now(void) {
    struct timespec t;
    clock_gettime(CLOCK_MONOTONIC, &t);
    return (uint64_t)t.tv_sec * 1000000000u + (uint64_t)t.tv_nsec;
}

static void need(int holds) {
    if (!holds) {
        perror("journal");
        exit(1);
    }
}

int main(int argc, char **argv) {
    if (argc != 4)
        return 2;
    int file = open(argv[1], O_RDWR | O_CREAT, 0666);
    long calls = atol(argv[2]), rounds = atol(argv[3]);
    unsigned char record[RECORD], closed = 0, opened = 1;
    uint64_t least = UINT64_MAX, sum = 0;
    off_t at = 0;
    need(file >= 0);
    memset(record, 'a', RECORD);
    record[RECORD - 1] = 0;
    need(pwrite(file, &closed, 1, 0) == 1 && fsync(file) == 0);
    for (long round = 0; round < rounds; round++) {
        uint64_t start = now();
        for (long call = 0; call < calls; call++) {
            need(pwrite(file, record, RECORD, at + 1) == RECORD && fsync(file) == 0);
            need(pwrite(file, &opened, 1, at) == 1 && fdatasync(file) == 0);
            at += RECORD;
        }
        uint64_t took = now() - start;
        least = took < least ? took : least;
        sum += (uint64_t)at;
    }
    uint64_t tenths = least * 10 / (uint64_t)(calls ? calls : 1);
    printf("gate_journal append %d bytes: %lu.%lu ns a call, sum %lu\n", BODY, tenths / 10, tenths % 10, sum);
    return 0;
}
