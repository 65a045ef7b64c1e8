// Measures CRC-32C over 64 MiB in MB/s (10^6 bytes), by the clock and of the processor, the best of nine
// rounds, in which the ways take turns.
#include "crc32c.h"
#include <stdio.h>
#include <stdlib.h>
#include <time.h>

enum { WAYS = 5, ROUNDS = 9 };

static const size_t SIZE = 64 << 20;

static const struct way {
    const char *name;
    uint32_t (*sum)(const uint8_t *, size_t);
} ways[WAYS] = {{"proved library", wal_crc32c},
                {"the library of before", old_wal_crc32c},
                {"the same way in C, gcc -O2", two_runs_crc32c},
                {"eight tables in C, gcc -O2", tables_crc32c},
                {"SSE4.2 instruction", instruction_crc32c}};

static double seconds(clockid_t clock) {
    struct timespec now;
    clock_gettime(clock, &now);
    return now.tv_sec + now.tv_nsec * 1e-9;
}

static void keep(double *best, double took) {
    double rate = SIZE / took / 1e6;
    if (rate > *best) *best = rate;
}

// Sums the bytes in one way; its sum has to be this one, if it isn't the first.
static int round_of(int way, const uint8_t *bytes, uint32_t *sum, double *clock, double *processor) {
    double start = seconds(CLOCK_MONOTONIC), used = seconds(CLOCK_PROCESS_CPUTIME_ID);
    uint32_t found = ways[way].sum(bytes, SIZE);
    keep(&processor[way], seconds(CLOCK_PROCESS_CPUTIME_ID) - used);
    keep(&clock[way], seconds(CLOCK_MONOTONIC) - start);
    if (way == 0) *sum = found;
    return found == *sum;
}

int main(void) {
    double clock[WAYS] = {0}, processor[WAYS] = {0};
    uint8_t *bytes = malloc(SIZE);
    if (!bytes) return 1;
    uint64_t x = 1;
    for (size_t i = 0; i < SIZE; i++) {
        x = x * 6364136223846793005u + 1442695040888963407u;
        bytes[i] = x >> 56;
    }
    make_tables();
    if (wal_crc32c((const uint8_t *)"123456789", 9) != 0xE3069283) return 2;
    for (size_t length = 0; length < 600; length++)
        for (int way = 1; way < WAYS; way++)
            if (ways[way].sum && ways[way].sum(bytes + 1, length) != ways[0].sum(bytes + 1, length)) return 3;
    for (int round = 0; round < ROUNDS; round++) {
        uint32_t sum = 0;
        for (int way = 0; way < WAYS; way++)
            if (ways[way].sum && !round_of(way, bytes, &sum, clock, processor)) return 4;
    }
    for (int way = 0; way < WAYS; way++) {
        if (!ways[way].sum) continue;
        printf("%-27s %6.0f MB/s by the clock, %6.0f MB/s of the processor", ways[way].name, clock[way], processor[way]);
        if (way > 0) printf("; the library runs at %.2f and %.2f of it", clock[0] / clock[way], processor[0] / processor[way]);
        printf("\n");
    }
    free(bytes);
    return 0;
}
