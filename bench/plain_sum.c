/* Sums the counts of 2^20 cells whose codes under a mask are 1, under each mask below 2000. */
#include <stdint.h>
#include <stdio.h>
#include <stdlib.h>

#define CELLS (1u << 20)

static uint64_t masked_sum(const uint64_t *counts, const uint64_t *codes, size_t n, uint64_t mask, uint64_t want) {
    uint64_t total = 0;
    for (size_t i = 0; i < n; i++) {
        if ((codes[i] & mask) == want) total += counts[i];
    }
    return total;
}

int main(void) {
    uint64_t *counts = malloc(CELLS * sizeof *counts);
    uint64_t *codes = malloc(CELLS * sizeof *codes);
    if (!counts || !codes) return 1;
    for (size_t i = 0; i < CELLS; i++) {
        counts[i] = 1;
        codes[i] = i;
    }
    uint64_t total = 0;
    for (uint64_t mask = 0; mask < 2000; mask++) total += masked_sum(counts, codes, CELLS, mask, 1);
    printf("total %llu\n", (unsigned long long)total);
    return 0;
}
