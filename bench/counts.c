// Times mcap_wire's reading of maps of counts in several orders: best of five, taken in turn.
#include <stdint.h>
#include <stdio.h>
#include <stdlib.h>
#include <time.h>

#define LARGEST 60000

size_t mcap_counts_of(const uint8_t *content, size_t length);

static double seconds(void) {
    struct timespec now;
    clock_gettime(CLOCK_MONOTONIC, &now);
    return now.tv_sec + now.tv_nsec * 1e-9;
}

// the key at an index: ascending, by steps of 9,973 around the keys, or ascending with key 0 last
static uint16_t key(int order, size_t n, size_t i) {
    switch (order) {
    case 0:
        return (uint16_t)i;
    case 1:
        return (uint16_t)((i + 1) * 9973);
    default:
        return (uint16_t)(i + 1 == n ? 0 : i + 1);
    }
}

static void fill(uint8_t *content, int order, size_t n) {
    for (int b = 0; b < 4; b++) {
        content[b] = (uint8_t)(10 * n >> 8 * b);
    }
    for (size_t i = 0; i < n; i++) {
        uint8_t *at = content + 4 + 10 * i;
        at[0] = (uint8_t)key(order, n, i);
        at[1] = (uint8_t)(key(order, n, i) >> 8);
        for (int b = 2; b < 10; b++) {
            at[b] = (uint8_t)i;
        }
    }
}

static double once(const uint8_t *content, size_t n, long turns) {
    volatile size_t sink = 0;
    double start = seconds();
    for (long turn = 0; turn < turns; turn++) {
        sink += mcap_counts_of(content, 4 + 10 * n);
    }
    return (seconds() - start) / (double)turns;
}

int main(void) {
    static const size_t sizes[] = {4, 16, 17, 1000, LARGEST};
    static uint8_t content[3][4 + 10 * LARGEST];
    printf("   counts   ascending  another order   last key lowest\n");
    for (int row = 0; row < 5; row++) {
        size_t n = sizes[row];
        long turns = (long)(5 * LARGEST / n);
        double best[3] = {1e9, 1e9, 1e9};
        for (int order = 0; order < 3; order++) {
            fill(content[order], order, n);
            if (mcap_counts_of(content[order], 4 + 10 * n) != n) {
                printf("%zu counts in order %d aren't read\n", n, order);
                return 1;
            }
        }
        for (int run = 0; run < 5; run++) {
            for (int order = 0; order < 3; order++) {
                double took = once(content[order], n, turns);
                best[order] = took < best[order] ? took : best[order];
            }
        }
        printf("%9zu %8.2f us %11.2f us %13.2f us\n", n, best[0] * 1e6, best[1] * 1e6, best[2] * 1e6);
    }
    return 0;
}
