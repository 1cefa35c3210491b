// Times mcap_crc's crc_of beside zlib's crc32: best of five of each, taken in turn.
#include <stdint.h>
#include <stdio.h>
#include <stdlib.h>
#include <time.h>
#include <zlib.h>

uint32_t mcap_crc_of(const uint8_t *bytes, size_t length);

static double seconds(void) {
    struct timespec now;
    clock_gettime(CLOCK_MONOTONIC, &now);
    return now.tv_sec + now.tv_nsec * 1e-9;
}

static uint32_t ours(const uint8_t *bytes, size_t length) {
    return mcap_crc_of(bytes, length);
}

static uint32_t theirs(const uint8_t *bytes, size_t length) {
    return (uint32_t)crc32(0, bytes, (uInt)length);
}

static double once(uint32_t (*crc)(const uint8_t *, size_t), const uint8_t *bytes, size_t length, long turns) {
    volatile uint32_t sink = 0;
    double start = seconds();
    for (long turn = 0; turn < turns; turn++) {
        sink ^= crc(bytes, length);
    }
    return seconds() - start;
}

int main(void) {
    static const size_t sizes[] = {64, 4096, 786432};
    uint8_t *bytes = malloc(786432);
    if (bytes == NULL) {
        return 1;
    }
    uint32_t state = 1;
    for (size_t at = 0; at < 786432; at++) {
        state = state * 1664525u + 1013904223u;
        bytes[at] = state >> 24;
    }
    for (int row = 0; row < 3; row++) {
        size_t length = sizes[row];
        long turns = (long)(200000000 / length);
        double best_ours = 1e9, best_theirs = 1e9;
        if (ours(bytes, length) != theirs(bytes, length)) {
            printf("%zu bytes: the checksums differ\n", length);
            return 1;
        }
        for (int run = 0; run < 5; run++) {
            double a = once(ours, bytes, length, turns);
            double b = once(theirs, bytes, length, turns);
            best_ours = a < best_ours ? a : best_ours;
            best_theirs = b < best_theirs ? b : best_theirs;
        }
        double done = (double)length * turns * 1e-9;
        printf("%7zu bytes: mcap_crc %.2f GB/s, zlib %.2f GB/s, ratio %.2f\n", length, done / best_ours, done / best_theirs, best_theirs / best_ours);
    }
    return 0;
}
