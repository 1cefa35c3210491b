// Times mcap_scan's Scanner over a recording in memory, beside a memcpy of the same bytes: best of five of each, in turn.
#include <stdint.h>
#include <stdio.h>
#include <stdlib.h>
#include <string.h>
#include <time.h>

#define CHUNK_SIZE 786432
#define FILE_SIZE 500000000

// How many records a scan gives up to and with the Data End; the largest number, where it doesn't come to one.
uint64_t mcap_scan_count(const uint8_t *bytes, size_t length);

static uint32_t crc_table[256];

static double seconds(void) {
    struct timespec now;
    clock_gettime(CLOCK_MONOTONIC, &now);
    return now.tv_sec + now.tv_nsec * 1e-9;
}

static void make_crc_table(void) {
    for (uint32_t byte = 0; byte < 256; byte++) {
        uint32_t crc = byte;
        for (int bit = 0; bit < 8; bit++) {
            crc = crc & 1 ? crc >> 1 ^ 0xedb88320u : crc >> 1;
        }
        crc_table[byte] = crc;
    }
}

static uint32_t crc_of(const uint8_t *bytes, size_t length) {
    uint32_t crc = 0xffffffffu;
    for (size_t i = 0; i < length; i++) {
        crc = crc >> 8 ^ crc_table[(crc ^ bytes[i]) & 255];
    }
    return ~crc;
}

static uint8_t *put(uint8_t *at, uint64_t value, int width) {
    for (int b = 0; b < width; b++) {
        *at++ = (uint8_t)(value >> 8 * b);
    }
    return at;
}

static uint8_t *put_head(uint8_t *at, uint8_t op, uint64_t length) {
    *at++ = op;
    return put(at, length, 8);
}

// what a recording holds
struct recording {
    uint8_t *bytes;
    size_t length;
    uint64_t messages;
    uint64_t chunks;
};

// a Channel of id 1 without a schema, of the topic "/a"
static uint8_t *put_channel(uint8_t *at) {
    at = put_head(at, 4, 18);
    at = put(put(at, 1, 2), 0, 2);
    at = put(at, 2, 4);
    *at++ = '/';
    *at++ = 'a';
    return put(put(at, 0, 4), 0, 4);
}

static uint8_t *put_message(uint8_t *at, uint64_t number, size_t size) {
    at = put_head(at, 5, 22 + size);
    at = put(put(at, 1, 2), (uint32_t)number, 4);
    at = put(put(at, number, 8), number, 8);
    for (size_t i = 0; i < size; i++) {
        *at++ = (uint8_t)(i * 7 + number);
    }
    return at;
}

// A chunk of messages of so many bytes of data, from that number on, up to the chunk's size. The first chunk begins with
// the Channel.
static uint8_t *put_chunk(uint8_t *at, struct recording *made, size_t size) {
    uint8_t *records = at + 49;
    uint8_t *end = records;
    uint64_t first = made->messages;
    if (made->chunks == 0) {
        end = put_channel(end);
    }
    while ((size_t)(end - records) < CHUNK_SIZE) {
        end = put_message(end, made->messages++, size);
    }
    size_t length = end - records;
    at = put_head(at, 6, 40 + length);
    at = put(put(at, first, 8), made->messages - 1, 8);
    at = put(put(at, length, 8), crc_of(records, length), 4);
    put(put(at, 0, 4), length, 8);
    made->chunks++;
    return end;
}

static struct recording make(uint8_t *bytes, size_t size) {
    struct recording made = {bytes, 0, 0, 0};
    uint8_t *at = bytes;
    memcpy(at, "\x89MCAP0\r\n", 8);
    at = put_head(at + 8, 1, 8);
    at = put(at, 0, 8);
    while (at - bytes < FILE_SIZE) {
        at = put_chunk(at, &made, size);
    }
    at = put_head(at, 15, 4);
    at = put(at, 0, 4);
    made.length = at - bytes;
    return made;
}

static int time_both(struct recording made, uint8_t *copy, size_t size) {
    double scan = 1e9, copied = 1e9;
    for (int run = 0; run < 5; run++) {
        double start = seconds();
        uint64_t records = mcap_scan_count(made.bytes, made.length);
        double took = seconds() - start;
        scan = took < scan ? took : scan;
        if (records != made.chunks + 2) {
            printf("%zu bytes of data: the scan doesn't come to its end\n", size);
            return 1;
        }
        start = seconds();
        memcpy(copy, made.bytes, made.length);
        took = seconds() - start;
        copied = took < copied ? took : copied;
        if (copy[made.length / 2] != made.bytes[made.length / 2]) {
            return 1;
        }
    }
    double gigabytes = made.length * 1e-9;
    printf("%5zu bytes of data: %.3f s, %.2f GB/s, %.1f million messages/s; memcpy %.3f s, %.2f GB/s, ratio %.2f\n", size, scan, gigabytes / scan, made.messages * 1e-6 / scan, copied, gigabytes / copied, scan / copied);
    return 0;
}

int main(void) {
    static const size_t sizes[] = {1000, 64};
    size_t room = FILE_SIZE + 2 * CHUNK_SIZE;
    uint8_t *bytes = malloc(room);
    uint8_t *copy = malloc(room);
    if (bytes == NULL || copy == NULL) {
        return 1;
    }
    make_crc_table();
    memset(copy, 1, room);
    for (int row = 0; row < 2; row++) {
        if (time_both(make(bytes, sizes[row]), copy, sizes[row]) != 0) {
            return 1;
        }
    }
    return 0;
}
