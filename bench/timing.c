// Times the two sides of a comparison.
#include "bench.h"

#include <time.h>

enum { RUNS = 9 };

// A run is long enough to count where the repetitions take this many seconds, and twice as long as the set-up.
static const double LONG_ENOUGH = 0.02;

double now(void) {
    struct timespec time;
    clock_gettime(CLOCK_PROCESS_CPUTIME_ID, &time);
    return (double)time.tv_sec + (double)time.tv_nsec * 1e-9;
}

static double run(side one, const void *work, uint32_t repetitions) {
    double start = now();
    volatile int64_t answer = one(work, repetitions);
    (void)answer;
    return now() - start;
}

static double least(double a, double b) {
    return a < b ? a : b;
}

static uint32_t repetitions_for(side one, const void *work) {
    double base = least(run(one, work, 0), run(one, work, 0));
    uint32_t repetitions = 1;
    while (repetitions < 1u << 26 && run(one, work, repetitions) < LONG_ENOUGH + 3 * base) {
        repetitions *= 2;
    }
    return repetitions;
}

void time_both(side ours, side theirs, const void *work, double seconds[2]) {
    side sides[2] = {ours, theirs};
    double base[2] = {1e9, 1e9};
    double whole[2] = {1e9, 1e9};
    uint32_t repetitions[2];
    for (int i = 0; i < 2; i++) {
        repetitions[i] = repetitions_for(sides[i], work);
    }
    for (int turn = 0; turn < 2 * RUNS; turn++) {
        int i = turn % 2;
        base[i] = least(base[i], run(sides[i], work, 0));
        whole[i] = least(whole[i], run(sides[i], work, repetitions[i]));
    }
    for (int i = 0; i < 2; i++) {
        seconds[i] = (whole[i] - base[i]) / repetitions[i];
    }
}
