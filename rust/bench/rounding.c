/*
 * rounding                     nanoseconds of three builds of the rounding of a position's correction, as rows of a Markdown table
 * rounding NUMBERS BUILD PASSES    only so many passes, for a counter of instructions
 */
#include <stdint.h>
#include <stdio.h>
#include <stdlib.h>
#include <time.h>

typedef struct { int64_t x, y, z; } rounded;
typedef rounded rounding(int64_t x, int64_t y, int64_t z, int64_t volume);

rounding as_it_is, remainder_read, two_divisions;
static rounding *const builds[3] = {as_it_is, remainder_read, two_divisions};

enum { POSITIONS = 1024, PASSES = 200, ROUNDS = 101 };
static int64_t sums[POSITIONS][3], volumes[POSITIONS];

/* below n, which is at most 2^62 */
static int64_t random_below(int64_t n) {
    static uint64_t state = 88172645463325252u;
    state ^= state << 13;
    state ^= state >> 7;
    state ^= state << 17;
    return (int64_t)((state >> 1) % (uint64_t)n);
}

/* Volumes up to the largest and sums as corrections up to 1,000 give them. */
static void draw(int64_t largest) {
    for (int i = 0; i < POSITIONS; i++) {
        volumes[i] = 1 + random_below(largest);
        for (int axis = 0; axis < 3; axis++) sums[i][axis] = random_below(2000 * volumes[i] + 1) - 1000 * volumes[i];
    }
}

static int64_t pass(rounding *build) {
    int64_t all = 0;
    for (int i = 0; i < POSITIONS; i++) {
        rounded r = build(sums[i][0], sums[i][1], sums[i][2], volumes[i]);
        all = 31 * all + r.x + 7 * r.y + 11 * r.z;
    }
    return all;
}

static double nanoseconds(rounding *build) {
    struct timespec from, to;
    volatile int64_t all = 0;
    clock_gettime(CLOCK_MONOTONIC, &from);
    for (int i = 0; i < PASSES; i++) all = all + pass(build);
    clock_gettime(CLOCK_MONOTONIC, &to);
    return ((to.tv_sec - from.tv_sec) * 1e9 + (to.tv_nsec - from.tv_nsec)) / (PASSES * POSITIONS);
}

static int times(const char *title) {
    double least[3] = {1e9, 1e9, 1e9};
    for (int b = 1; b < 3; b++) {
        if (pass(builds[b]) != pass(builds[0])) return fprintf(stderr, "rounding: the builds differ\n"), 1;
    }
    for (int round = 0; round < ROUNDS; round++) {
        for (int turn = 0; turn < 3; turn++) {
            int b = (round + turn) % 3;
            double now = nanoseconds(builds[b]);
            if (now < least[b]) least[b] = now;
        }
    }
    printf("| %s | nanoseconds | %.1f | %.1f | %.1f |\n", title, least[0], least[1], least[2]);
    return 0;
}

int main(int argc, char **argv) {
    if (argc == 1) {
        draw((int64_t)1 << 52);
        if (times("volumes up to 2^52")) return 1;
        draw((int64_t)1 << 20);
        return times("volumes up to 2^20");
    }
    draw((int64_t)1 << atoi(argv[1]));
    volatile int64_t all = 0;
    for (int i = 0; i < atoi(argv[3]); i++) all = all + pass(builds[atoi(argv[2])]);
    return 0;
}
