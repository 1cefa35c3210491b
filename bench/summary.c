// Times a summary of a million blocks and the ids of known contents, each in a process of its own: best of three.
#include <stdint.h>
#include <stdio.h>
#include <stdlib.h>
#include <sys/resource.h>
#include <sys/wait.h>
#include <time.h>
#include <unistd.h>

uint64_t mcap_summary_noted(uint64_t blocks, uint64_t written);
uint64_t mcap_contents_declared(uint64_t rounds, uint64_t schema);
uint64_t mcap_contents_found(uint64_t rounds, uint64_t schema);

struct figures {
    double seconds;
    double bytes;
    uint64_t result;
};

static double seconds(void) {
    struct timespec now;
    clock_gettime(CLOCK_MONOTONIC, &now);
    return now.tv_sec + now.tv_nsec * 1e-9;
}

static double peak(void) {
    struct rusage use;
    getrusage(RUSAGE_SELF, &use);
    return use.ru_maxrss * 1024.0;
}

static uint64_t noted(uint64_t blocks) { return mcap_summary_noted(blocks, 0); }

static uint64_t written(uint64_t blocks) { return mcap_summary_noted(blocks, 1); }

static uint64_t declared(uint64_t rounds) { return mcap_contents_declared(rounds, 0); }

static uint64_t found(uint64_t rounds) { return mcap_contents_found(rounds, 0); }

static uint64_t declared_with_schema(uint64_t rounds) { return mcap_contents_declared(rounds, 1000); }

static uint64_t found_with_schema(uint64_t rounds) { return mcap_contents_found(rounds, 1000); }

static struct figures once(uint64_t (*run)(uint64_t), uint64_t count) {
    struct figures f = {0, 0, 0};
    int ends[2];
    if (pipe(ends) != 0) {
        exit(1);
    }
    if (fork() == 0) {
        double before = peak(), start = seconds();
        f.result = run(count);
        f.seconds = seconds() - start;
        f.bytes = peak() - before;
        _exit(write(ends[1], &f, sizeof f) == (ssize_t)sizeof f ? 0 : 1);
    }
    close(ends[1]);
    if (read(ends[0], &f, sizeof f) != (ssize_t)sizeof f) {
        exit(1);
    }
    close(ends[0]);
    wait(NULL);
    return f;
}

static struct figures best(uint64_t (*run)(uint64_t), uint64_t count) {
    struct figures least = once(run, count);
    for (int turn = 1; turn < 3; turn++) {
        struct figures f = once(run, count);
        least.seconds = f.seconds < least.seconds ? f.seconds : least.seconds;
    }
    return least;
}

int main(void) {
    uint64_t blocks = 1000000, rounds = 25000;
    struct figures f = best(noted, blocks);
    printf("noted:    %.2f s a million blocks, peak %.0f bytes a block\n", f.seconds, f.bytes / blocks);
    f = best(written, blocks);
    printf("and text: %.2f s a million blocks, peak %.0f bytes a block, %.0f bytes of text a block\n", f.seconds, f.bytes / blocks, (double)f.result / blocks);
    printf("known contents of 40 channels, million a second:\n");
    f = best(declared, rounds);
    printf("declare without a schema %.2f", f.result / f.seconds * 1e-6);
    f = best(declared_with_schema, rounds);
    printf(", with a schema of 1,000 bytes %.2f\n", f.result / f.seconds * 1e-6);
    f = best(found, rounds);
    printf("find without a schema    %.2f", f.result / f.seconds * 1e-6);
    f = best(found_with_schema, rounds);
    printf(", with a schema of 1,000 bytes %.2f\n", f.result / f.seconds * 1e-6);
    return 0;
}
