// Times the building of blocks from framed messages on two channels beside a plain copy and crc_of of the same bytes: best of
// five of each, taken in turn.
#include <stdint.h>
#include <stdio.h>
#include <stdlib.h>
#include <string.h>
#include <time.h>

// Where C calls it, the allocator takes no place among the arguments.
uint64_t mcap_blocks_of(const uint8_t *first, size_t first_length, const uint8_t *second, size_t second_length, uint64_t size, uint64_t turns);
uint32_t mcap_crc_of(const uint8_t *bytes, size_t length);

enum { CHUNK = 786432, LONGEST = 31 + 1000 };

static double seconds(void) {
    struct timespec now;
    clock_gettime(CLOCK_MONOTONIC, &now);
    return now.tv_sec + now.tv_nsec * 1e-9;
}

// A framed Message on a channel.
static void frame(uint8_t *record, size_t length, uint16_t channel, uint64_t log_time) {
    uint64_t content = length - 9;
    for (size_t at = 0; at < length; at++) {
        record[at] = (uint8_t)(at * 7);
    }
    record[0] = 5;
    memcpy(record + 1, &content, 8);
    memcpy(record + 9, &channel, 2);
    memcpy(record + 15, &log_time, 8);
}

static uint32_t copied(uint8_t *out, const uint8_t *first, const uint8_t *second, size_t length, uint64_t turns) {
    uint32_t crc = 0;
    size_t held = 0;
    for (uint64_t turn = 0; turn < 2 * turns; turn++) {
        memcpy(out + held, turn % 2 == 0 ? first : second, length);
        held += length;
        if (held >= CHUNK) {
            crc ^= mcap_crc_of(out, held);
            held = 0;
        }
    }
    return crc;
}

int main(void) {
    static const size_t datas[] = {1000, 64};
    uint8_t first[LONGEST], second[LONGEST];
    uint8_t *out = malloc(2 * CHUNK);
    if (out == NULL) {
        return 1;
    }
    memset(out, 1, 2 * CHUNK);
    for (int row = 0; row < 2; row++) {
        size_t length = 31 + datas[row];
        uint64_t turns = 200000000 / length;
        volatile uint64_t sink = 0;
        double ours = 1e9, plain = 1e9;
        frame(first, length, 2, 1700000000000000001u);
        frame(second, length, 1, 1700000000000000000u);
        for (int run = 0; run < 5; run++) {
            double start = seconds();
            sink += copied(out, first, second, length, turns);
            double middle = seconds();
            uint64_t total = mcap_blocks_of(first, length, second, length, CHUNK, turns);
            double end = seconds();
            if (total == 0) {
                printf("no memory\n");
                return 1;
            }
            plain = middle - start < plain ? middle - start : plain;
            ours = end - middle < ours ? end - middle : ours;
        }
        double done = 2.0 * length * turns * 1e-9;
        printf("%4zu bytes: blocks %.2f GB/s, copy and crc_of %.2f GB/s, ratio %.2f; %.1f million messages a second\n", datas[row], done / ours,
            done / plain, plain / ours, 2e-6 * turns / ours);
    }
    free(out);
    return 0;
}
