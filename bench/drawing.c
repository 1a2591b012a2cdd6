// Drawing calls, made by the step of a run's parts, beside memset or memmove on as many bytes.
#include "bench.h"

#include <stdio.h>
#include <stdlib.h>
#include <string.h>

enum shape { SQUARE, LINES, SCROLL_LEFT, SCROLL_UP, SCROLL_BACK, FROM_BITMAP, FROM_LAYER, WITHIN, TEXT, WINDOWS, CUT, CLIPPED, STEEP, COMPLEMENT };

struct work {
    uint32_t shape;
    int16_t side;
    uint32_t planes;
    uint32_t calls;
    uint32_t bytes;
};

static int64_t with_step(const void *of, uint32_t repetitions) {
    const struct work *work = of;
    return lw_bench_drawing(work->shape, work->side, work->planes, repetitions);
}

// One memset for all bytes that a call writes.
static int64_t with_memset(const void *of, uint32_t repetitions) {
    const struct work *work = of;
    static uint8_t bytes[512 * 80 * 8];
    for (uint32_t i = 0; i < repetitions; i++) {
        memset(bytes, i % 2 == 0 ? 255 : 0, work->bytes);
        __asm__ volatile("" : : "r"(bytes) : "memory");
    }
    return bytes[0];
}

// One memmove for all bytes that a call writes.
static int64_t with_memmove(const void *of, uint32_t repetitions) {
    const struct work *work = of;
    static uint8_t bytes[2 * 512 * 80 * 8];
    for (uint32_t i = 0; i < repetitions; i++) {
        memmove(bytes + 64, bytes, work->bytes);
        __asm__ volatile("" : : "r"(bytes) : "memory");
    }
    return bytes[0];
}

static void print_line(const char *name, const struct work *work) {
    double seconds[2];
    int moves = work->shape >= SCROLL_LEFT && work->shape <= WITHIN;
    time_both(with_step, moves ? with_memmove : with_memset, work, seconds);
    double call = seconds[0] / work->calls;
    printf("| %s | %u | %u | %.0f | %.0f | %.2f |\n", name, (unsigned)work->planes, (unsigned)work->bytes, 1 / call,
           1 / seconds[1], call * 1e9 / work->bytes);
    fflush(stdout);
}

// A square from column 3 on has this many bytes in a row.
static uint32_t bytes_of_square(uint32_t side) {
    return (3 + side + 7) / 8 * side;
}

// Scrolls of two squares, and blits of one.
static void print_moves(uint32_t planes) {
    static const char *const scrolls[3] = {"(1, 0)", "(0, 1)", "(-7, -3)"};
    static const char *const blits[3] = {"from a bitmap", "from a layer", "within a layer"};
    for (int16_t side = 100; side <= 500; side += 400) {
        for (uint32_t i = 0; i < 3; i++) {
            char name[48];
            struct work work = {SCROLL_LEFT + i, side, planes, 1, planes * bytes_of_square((uint32_t)side)};
            snprintf(name, sizeof name, "scroll of %d by %d by %s", side, side, scrolls[i]);
            print_line(name, &work);
        }
    }
    for (uint32_t i = 0; i < 3; i++) {
        char name[48];
        struct work work = {FROM_BITMAP + i, 100, planes, 1, planes * bytes_of_square(100)};
        snprintf(name, sizeof name, "blit of 100 by 100 %s", blits[i]);
        print_line(name, &work);
    }
}

// A fill of 100 by 100 in a layer that is cut into rectangles.
static void print_cut(const char *name, uint32_t shape, uint32_t planes, uint32_t rectangles) {
    struct work work = {shape, 100, planes, 1, planes * bytes_of_square(100)};
    double seconds[2];
    time_both(with_step, with_memset, &work, seconds);
    printf("| %s | %u | %u | %.0f | %.1f |\n", name, (unsigned)planes, (unsigned)rectangles, 1 / seconds[0],
           seconds[0] * 1e9 / rectangles);
    fflush(stdout);
}

void bench_drawing(void) {
    static const int16_t sides[3] = {10, 100, 500};
    static const uint32_t depths[2] = {2, 8};
    puts("| call | planes | bytes | calls a second | memsets or memmoves of as many bytes a second | nanoseconds a byte |");
    puts("|---|---|---|---|---|---|");
    for (int d = 0; d < 2; d++) {
        uint32_t planes = depths[d];
        for (int i = 0; i < 3; i++) {
            char name[32];
            struct work work = {SQUARE, sides[i], planes, 1, planes * bytes_of_square((uint32_t)sides[i])};
            snprintf(name, sizeof name, "fill of %d by %d", sides[i], sides[i]);
            print_line(name, &work);
        }
        struct work flat = {LINES, 37, planes, 2, planes * 100};
        print_line("line of 100 pixels", &flat);
        struct work steep = {STEEP, 37, planes, 2, planes * 100};
        print_line("steep line of 100 pixels", &steep);
        struct work inverted = {COMPLEMENT, 100, planes, 1, planes * bytes_of_square(100)};
        print_line("fill of 100 by 100, COMPLEMENT", &inverted);
        struct work text = {TEXT, 0, planes, 1, planes * 8 * 80};
        print_line("text of 80 letters", &text);
        print_moves(planes);
    }
    puts("\n| fill of 100 by 100 | planes | rectangles | calls a second | nanoseconds a rectangle |");
    puts("|---|---|---|---|---|");
    for (int d = 0; d < 2; d++) {
        print_cut("four windows over the layer", WINDOWS, depths[d], 13);
        print_cut("over 64 clip rectangles", CUT, depths[d], 64);
        print_cut("in a clip region of 128 rectangles", CLIPPED, depths[d], 128);
    }
}
