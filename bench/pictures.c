// Pictures written and read as ILBM files, beside `memcpy` of the same planes.
#include "bench.h"

#include <stdio.h>
#include <stdlib.h>
#include <string.h>

enum { KINDS = 3, BYTES = 2048 / 8 * 2048 * 8 };

static const char *const NAMES[KINDS] = {"pen 0 all over", "squares of 32 by 32", "noise"};

struct work {
    uint32_t kind, reads;
};

static int64_t with_ours(const void *of, uint32_t repetitions) {
    const struct work *work = of;
    return lw_bench_pictures(work->kind, work->reads, repetitions, 1);
}

// The planes' bytes copied to memory that is taken anew each time, as ours takes its own.
static int64_t with_memcpy(const void *of, uint32_t repetitions) {
    (void)of;
    uint8_t *from = malloc(BYTES);
    if (!from) {
        exit(2);
    }
    memset(from, 85, BYTES);
    volatile uint8_t last = 0;
    for (uint32_t i = 0; i < repetitions; i++) {
        uint8_t *to = malloc(BYTES);
        if (!to) {
            exit(2);
        }
        memcpy(to, from, BYTES);
        last = to[i % BYTES];
        free(to);
    }
    free(from);
    return last;
}

void bench_pictures(void) {
    puts("| picture | work | bytes of the file | milliseconds | memcpy of the planes, milliseconds | ratio |");
    puts("|---|---|---|---|---|---|");
    for (uint32_t kind = 0; kind < KINDS; kind++) {
        long long bytes = lw_bench_pictures(kind, 0, 1, 1);
        for (uint32_t reads = 0; reads < 2; reads++) {
            struct work work = {kind, reads};
            double seconds[2];
            time_both(with_ours, with_memcpy, &work, seconds);
            printf("| %s | %s | %lld | %.2f | %.2f | %.1f |\n", NAMES[kind], reads ? "read" : "written", bytes, seconds[0] * 1e3,
                   seconds[1] * 1e3, seconds[0] / seconds[1]);
            fflush(stdout);
        }
    }
}
