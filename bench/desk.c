// Times the desk beside a plain copy of the same framed bytes into a buffer that is filled again and again: best of five of
// each, taken in turn.
#include <stdint.h>
#include <stdio.h>
#include <stdlib.h>
#include <string.h>
#include <time.h>

// Where C calls it, the allocator takes no place among the arguments.
uint64_t mcap_desk_of(const uint8_t *payload, size_t length, uint64_t limit, uint64_t messages);

enum { LIMIT = 16777216, LONGEST = 31 + 1000 };

static double seconds(void) {
    struct timespec now;
    clock_gettime(CLOCK_MONOTONIC, &now);
    return now.tv_sec + now.tv_nsec * 1e-9;
}

static uint8_t copied(uint8_t *out, const uint8_t *record, size_t length, uint64_t messages) {
    size_t held = 0;
    uint8_t sum = 0;
    for (uint64_t message = 0; message < messages; message++) {
        if (held >= LIMIT) {
            sum ^= out[held - 1];
            held = 0;
        }
        memcpy(out + held, record, length);
        held += length;
    }
    return sum;
}

int main(void) {
    static const size_t datas[] = {1000, 64};
    uint8_t record[LONGEST];
    uint8_t *out = malloc(LIMIT + LONGEST);
    if (out == NULL) {
        return 1;
    }
    memset(out, 1, LIMIT + LONGEST);
    memset(record, 7, LONGEST);
    for (int row = 0; row < 2; row++) {
        size_t length = 31 + datas[row];
        uint64_t messages = 1000000000 / length;
        volatile uint8_t sink = 0;
        double ours = 1e9, plain = 1e9;
        for (int run = 0; run < 5; run++) {
            double start = seconds();
            sink += copied(out, record, length, messages);
            double middle = seconds();
            uint64_t count = mcap_desk_of(record + 31, datas[row], LIMIT, messages);
            double end = seconds();
            if (count != messages + 1) {
                printf("no memory\n");
                return 1;
            }
            plain = middle - start < plain ? middle - start : plain;
            ours = end - middle < ours ? end - middle : ours;
        }
        double done = 1e-9 * length * messages;
        printf("%4zu bytes: desk %.2f GB/s, copy %.2f GB/s, ratio %.2f; %.1f million messages a second\n", datas[row], done / ours, done / plain,
            plain / ours, 1e-6 * messages / ours);
    }
    free(out);
    return 0;
}
