// The row kernels beside memset and memmove on as many bytes, and beside the same work in C.
#include "bench.h"

#include <stdio.h>
#include <string.h>

enum kernel { FILL, FLIP, COMBINE, WITHIN_TO_THE_LEFT, WITHIN_TO_THE_RIGHT, KERNELS };

enum { ROOM = 4098, COPY_SOURCE = 0xc0 };

static const char *const KERNEL_NAMES[KERNELS] = {
    "fill", "flip", "combine", "combine_within, to the left", "combine_within, to the right",
};

struct work {
    uint32_t kernel;
    uint32_t bytes;
    uint32_t bit;
    uint8_t minterm;
    uint32_t seed;
};

static void make_rows(const struct work *work, uint8_t row[ROOM], uint8_t source[ROOM]) {
    struct generator generator = {work->seed};
    for (int i = 0; i < ROOM; i++) {
        row[i] = (uint8_t)below(&generator, 256);
    }
    for (int i = 0; i < ROOM; i++) {
        source[i] = (uint8_t)below(&generator, 256);
    }
}

static int64_t digest(const uint8_t *row, uint32_t length) {
    uint32_t sum = 0;
    for (uint32_t i = 0; i < length; i++) {
        sum = sum * 31 + row[i];
    }
    return sum;
}

static int64_t with_ours(const void *of, uint32_t repetitions) {
    const struct work *work = of;
    return lw_bench_row(work->kernel, work->bytes, work->bit, work->minterm, repetitions, work->seed);
}

// The compiler may not leave a repetition out, nor join two.
static void settle(const uint8_t *row, const uint8_t *source) {
    __asm__ volatile("" : : "r"(row), "r"(source) : "memory");
}

// memset for fill and flip, memmove for the blits, on whole bytes.
static int64_t with_memory(const void *of, uint32_t repetitions) {
    const struct work *work = of;
    uint8_t row[ROOM], source[ROOM];
    uint32_t bytes = work->bytes;
    make_rows(work, row, source);
    if (work->kernel == FILL || work->kernel == FLIP) {
        for (uint32_t i = 0; i < repetitions; i++) {
            memset(row, i % 2 == 0 ? 255 : 0, bytes);
            settle(row, source);
        }
    } else {
        uint8_t *to = work->kernel == WITHIN_TO_THE_RIGHT ? row + 1 : row;
        const uint8_t *from = work->kernel == COMBINE ? source : work->kernel == WITHIN_TO_THE_RIGHT ? row : row + 1;
        for (uint32_t i = 0; i < repetitions; i++) {
            memmove(to, from, bytes);
            settle(row, source);
        }
    }
    return digest(row, bytes + 2);
}

// The work in C that is nearest to the kernel's, or none.
static row_loop loop_for(const struct work *work) {
    if (work->bytes < 64) {
        return 0;
    }
    if (work->kernel == FILL) {
        return work->bit == 0 ? loop_fill : loop_fill_across;
    }
    if (work->kernel == FLIP) {
        return work->bit == 0 ? loop_flip : loop_flip_across;
    }
    if (work->minterm == COPY_SOURCE && work->bit == 0 && work->kernel == COMBINE) {
        return loop_copy;
    }
    if (work->minterm == COPY_SOURCE && work->bit == 3) {
        switch (work->kernel) {
        case COMBINE:
            return loop_copy_across;
        case WITHIN_TO_THE_LEFT:
            return loop_copy_to_the_left;
        case WITHIN_TO_THE_RIGHT:
            return loop_shift_to_the_right;
        }
    }
    if (work->minterm == 0x60 && work->kernel == COMBINE) {
        return work->bit == 0 ? loop_exclusive_or : loop_shift_exclusive_or;
    }
    return 0;
}

static int64_t with_loop(const void *of, uint32_t repetitions) {
    const struct work *work = of;
    uint8_t row[ROOM], source[ROOM];
    row_loop loop = loop_for(work);
    make_rows(work, row, source);
    for (uint32_t i = 0; i < repetitions; i++) {
        loop(row, source, work->bytes);
        settle(row, source);
    }
    return digest(row, work->bytes + 2);
}

static int bit_of(const uint8_t *row, uint32_t x) {
    return row[x / 8] >> (7 - x % 8) & 1;
}

static void set_bit(uint8_t *row, uint32_t x, int bit) {
    uint8_t mask = (uint8_t)(128 >> x % 8);
    row[x / 8] = (uint8_t)(bit ? row[x / 8] | mask : row[x / 8] & ~mask);
}

// The first bit that a kernel writes.
static uint32_t first_bit(const struct work *work) {
    return work->kernel == WITHIN_TO_THE_RIGHT ? work->bit + 8 : work->bit;
}

// The minterm's value for a source bit and an old bit.
static int minterm_value(uint8_t minterm, int source, int old) {
    return minterm >> (4 + 2 * source + old) & 1;
}

// What the kernel makes of one bit, where `row` and `source` are as before the call.
static int bit_made(const struct work *work, const uint8_t *row, const uint8_t *source, uint32_t x, uint32_t turn) {
    uint32_t offset = x - first_bit(work);
    switch (work->kernel) {
    case FILL:
        return turn % 2 == 0;
    case FLIP:
        return !bit_of(row, x);
    case COMBINE:
        return minterm_value(work->minterm, bit_of(source, offset), bit_of(row, x));
    case WITHIN_TO_THE_LEFT:
        return minterm_value(work->minterm, bit_of(row, 8 + offset), bit_of(row, x));
    default:
        return minterm_value(work->minterm, bit_of(row, offset), bit_of(row, x));
    }
}

// The kernels bit by bit.
static int64_t bit_by_bit(const struct work *work, uint32_t repetitions) {
    uint8_t row[ROOM], source[ROOM], old[ROOM];
    uint32_t first = first_bit(work);
    make_rows(work, row, source);
    for (uint32_t i = 0; i < repetitions; i++) {
        memcpy(old, row, ROOM);
        for (uint32_t x = first; x < first + 8 * work->bytes; x++) {
            set_bit(row, x, bit_made(work, old, source, x, i));
        }
    }
    return digest(row, work->bytes + 2);
}

static int compare(const struct work *work) {
    double seconds[2], loop[2] = {0, 0};
    int agrees = with_ours(work, 3) == bit_by_bit(work, 3);
    time_both(with_ours, with_memory, work, seconds);
    printf("| %s ", KERNEL_NAMES[work->kernel]);
    if (work->kernel >= COMBINE) {
        printf("| %02x ", (unsigned)work->minterm);
    } else {
        printf("| ");
    }
    printf("| %u | %u | %.1f | %.1f | %.2f |", (unsigned)work->bytes, (unsigned)work->bit, seconds[0] * 1e9,
           seconds[1] * 1e9, seconds[1] / seconds[0]);
    if (loop_for(work)) {
        time_both(with_loop, with_memory, work, loop);
        printf(" %.1f |", loop[0] * 1e9);
    } else {
        printf(" |");
    }
    puts(agrees ? "" : " DISAGREES");
    fflush(stdout);
    return !agrees;
}

// Every size for the copy, and four of them for the other minterms.
static int compare_sizes(uint32_t kernel, uint8_t minterm, uint32_t bit) {
    static const uint32_t sizes[10] = {2, 4, 8, 16, 32, 64, 128, 256, 1024, 4096};
    int disagreements = 0;
    for (int i = 0; i < 10; i++) {
        struct work work = {kernel, sizes[i], bit, minterm, 1};
        if (minterm == COPY_SOURCE || i == 0 || i == 2 || i == 5 || i >= 8) {
            disagreements += compare(&work);
        }
    }
    return disagreements;
}

int bench_rows(void) {
    static const uint8_t minterms[5] = {COPY_SOURCE, 0x50, 0x30, 0x80, 0x60};
    int disagreements = 0;
    puts("| kernel | minterm | bytes | first bit | ours, nanoseconds | memset or memmove, nanoseconds | share | "
         "in C, nanoseconds |");
    puts("|---|---|---|---|---|---|---|---|");
    for (uint32_t kernel = 0; kernel < KERNELS; kernel++) {
        for (int i = 0; i < (kernel >= COMBINE ? 5 : 1); i++) {
            for (uint32_t bit = 0; bit < 6; bit += 3) {
                disagreements += compare_sizes(kernel, minterms[i], bit);
            }
        }
    }
    return disagreements;
}
