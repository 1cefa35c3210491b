// Times mcap_wire's reading of maps of texts in several orders: best of up to five, taken in turn. Keys have eight bytes, values
// none.
#include <stdint.h>
#include <stdio.h>
#include <stdlib.h>
#include <string.h>
#include <time.h>

size_t mcap_pairs_of(const uint8_t *content, size_t length);

static double seconds(void) {
    struct timespec now;
    clock_gettime(CLOCK_MONOTONIC, &now);
    return now.tv_sec + now.tv_nsec * 1e-9;
}

static void put32(uint8_t *at, size_t value) {
    for (int b = 0; b < 4; b++) {
        at[b] = (uint8_t)(value >> 8 * b);
    }
}

// the numbers from 0 to n, ascending, shuffled by a fixed seed, or descending
static void arrange(uint32_t *numbers, int order, size_t n) {
    for (size_t i = 0; i < n; i++) {
        numbers[i] = (uint32_t)(order == 2 ? n - 1 - i : i);
    }
    if (order == 1) {
        uint64_t state = 88172645463325252u;
        for (size_t i = n; i > 1; i--) {
            state ^= state << 13;
            state ^= state >> 7;
            state ^= state << 17;
            size_t j = state % i;
            uint32_t kept = numbers[i - 1];
            numbers[i - 1] = numbers[j];
            numbers[j] = kept;
        }
    }
}

static void fill(uint8_t *content, const uint32_t *numbers, size_t n) {
    put32(content, 16 * n);
    for (size_t i = 0; i < n; i++) {
        uint8_t *at = content + 4 + 16 * i;
        char key[16];
        snprintf(key, sizeof key, "%08u", numbers[i]);
        put32(at, 8);
        memcpy(at + 4, key, 8);
        put32(at + 12, 0);
    }
}

static double once(const uint8_t *content, size_t n, long turns) {
    double start = seconds();
    for (long turn = 0; turn < turns; turn++) {
        if (mcap_pairs_of(content, 4 + 16 * n) != n) {
            printf("%zu pairs aren't read\n", n);
            exit(1);
        }
    }
    return (seconds() - start) / (double)turns;
}

int main(int words, char **word) {
    static const size_t usual[] = {4, 16, 17, 100, 1000, 40000, 200000, 1000000};
    int rows = words > 1 ? words - 1 : 8;
    printf("    pairs      ascending       shuffled     descending\n");
    for (int row = 0; row < rows; row++) {
        size_t n = words > 1 ? strtoul(word[row + 1], NULL, 10) : usual[row];
        uint32_t *numbers = malloc(4 * n);
        uint8_t *content[3];
        long turns = n < 20000 ? (long)(20000 / n) : 1;
        double best[3] = {1e9, 1e9, 1e9};
        for (int order = 0; order < 3; order++) {
            content[order] = malloc(4 + 16 * n);
            arrange(numbers, order, n);
            fill(content[order], numbers, n);
        }
        for (int run = 0; run < (n < 100000 ? 5 : 1); run++) {
            for (int order = 0; order < 3; order++) {
                double took = once(content[order], n, turns);
                best[order] = took < best[order] ? took : best[order];
            }
        }
        printf("%9zu %11.2f us %11.2f us %11.2f us\n", n, best[0] * 1e6, best[1] * 1e6, best[2] * 1e6);
        fflush(stdout);
        free(numbers);
        for (int order = 0; order < 3; order++) {
            free(content[order]);
        }
    }
    return 0;
}
