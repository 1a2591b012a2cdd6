// What the files of the benchmarks share: the generator, the timing, and the calls of the static library.
#ifndef BENCH_H
#define BENCH_H

#include <stdint.h>

// The calls of crates/lw_bench_c.
int64_t lw_bench_regions(uint32_t shape, uint16_t size, uint32_t operation, uint32_t repetitions, uint32_t seed);
uint32_t lw_bench_row(uint32_t kernel, uint32_t bytes, uint32_t bit, uint8_t minterm, uint32_t repetitions,
                      uint32_t seed);
int64_t lw_bench_areas(uint32_t shape, uint32_t repetitions, uint32_t seed);
int64_t lw_bench_pictures(uint32_t kind, uint32_t reads, uint32_t repetitions, uint32_t seed);
int64_t lw_bench_drawing(uint32_t shape, int16_t side, uint32_t planes, uint32_t repetitions);
int64_t lw_bench_fronts(uint32_t slots, uint32_t layers, uint32_t repetitions);

// The generator that both sides use; its state begins as the seed.
struct generator {
    uint32_t state;
};

// The next number of the generator, modulo `limit`.
static inline uint32_t below(struct generator *generator, uint32_t limit) {
    generator->state = generator->state * 1664525u + 1013904223u;
    return (generator->state >> 16) % limit;
}

// Seconds of processor time that this process has taken.
double now(void);

// One side of a comparison: it does the work `repetitions` times, with the set-up before it.
typedef int64_t (*side)(const void *work, uint32_t repetitions);

// The seconds that one repetition takes on each of the two sides: the set-up is timed alone and taken off, and
// the least of several runs counts. The runs of the two sides take turns.
void time_both(side ours, side theirs, const void *work, double seconds[2]);

// Work in C on `bytes` bytes of a row, whose source has room for two bytes more.
typedef void (*row_loop)(uint8_t *row, const uint8_t *source, uint32_t bytes);

void loop_fill(uint8_t *row, const uint8_t *source, uint32_t bytes);
void loop_fill_across(uint8_t *row, const uint8_t *source, uint32_t bytes);
void loop_copy(uint8_t *row, const uint8_t *source, uint32_t bytes);
void loop_copy_across(uint8_t *row, const uint8_t *source, uint32_t bytes);
void loop_flip(uint8_t *row, const uint8_t *source, uint32_t bytes);
void loop_flip_across(uint8_t *row, const uint8_t *source, uint32_t bytes);
void loop_copy_to_the_left(uint8_t *row, const uint8_t *source, uint32_t bytes);
void loop_shift_to_the_right(uint8_t *row, const uint8_t *source, uint32_t bytes);
void loop_exclusive_or(uint8_t *row, const uint8_t *source, uint32_t bytes);
void loop_shift_exclusive_or(uint8_t *row, const uint8_t *source, uint32_t bytes);

// Each prints a table; the answer is the number of lines on which the two sides disagree.
int bench_regions(void);
int bench_rows(void);
int bench_areas(void);

// Prints the table of pictures.
void bench_pictures(void);

// Prints the table of drawing calls.
void bench_drawing(void);

#endif
