// Operations on regions beside pixman's, on the same operands.
#include "bench.h"

#include <pixman.h>
#include <stdio.h>
#include <stdlib.h>
#include <string.h>

enum { FIELD = 65535, WIDEST = 8000, TALLEST = 30000 };

enum operation { COPY, UNION, INTERSECTION, SYMMETRIC_DIFFERENCE, DIFFERENCE, RECTANGLE_DIFFERENCE, OPERATIONS };

static const char *const OPERATION_NAMES[OPERATIONS] = {
    "copy", "union", "intersection", "exclusive-or", "difference", "less a rectangle",
};

static const char *const SHAPE_NAMES[2] = {"grid", "random"};

struct work {
    uint32_t shape;
    uint16_t size;
    uint32_t operation;
    uint32_t seed;
};

struct operands {
    pixman_region16_t a, b, hole, into, common;
};

static uint32_t root_above(uint32_t size) {
    uint32_t root = 1;
    while (root * root < size) {
        root++;
    }
    return root;
}

static pixman_box16_t box_at(uint32_t x, uint32_t y, uint32_t width, uint32_t height) {
    pixman_box16_t made = {
        (int16_t)((int)x - 32768),
        (int16_t)((int)y - 32768),
        (int16_t)((int)(x + width) - 32768),
        (int16_t)((int)(y + height) - 32768),
    };
    return made;
}

static void staggered_grid(pixman_box16_t *boxes, uint32_t size, int is_second) {
    uint32_t columns = root_above(size);
    uint32_t cell = FIELD / (columns + 1);
    uint32_t shift = is_second ? cell / 2 : 0;
    uint32_t side = cell - cell / 4;
    for (uint32_t i = 0; i < size; i++) {
        uint32_t row = i / columns;
        uint32_t stagger = row % 2 == 1 ? cell / 4 : 0;
        boxes[i] = box_at(i % columns * cell + stagger + shift, row * cell + shift, side, side);
    }
}

static void random_boxes(pixman_box16_t *boxes, uint32_t size, struct generator *generator) {
    uint32_t tallest = 240000 / (size + 1);
    tallest = tallest < 1 ? 1 : tallest > TALLEST ? TALLEST : tallest;
    for (uint32_t i = 0; i < size; i++) {
        uint32_t width = below(generator, WIDEST) + 1;
        uint32_t height = below(generator, tallest) + 1;
        uint32_t x = below(generator, FIELD - WIDEST + 1);
        uint32_t y = below(generator, FIELD - tallest + 1);
        boxes[i] = box_at(x, y, width, height);
    }
}

static void make_operands(const struct work *work, struct operands *operands) {
    struct generator generator = {work->seed};
    pixman_box16_t *boxes = malloc(work->size * sizeof *boxes);
    if (!boxes) {
        exit(2);
    }
    for (int i = 0; i < 2; i++) {
        if (work->shape == 0) {
            staggered_grid(boxes, work->size, i);
        } else {
            random_boxes(boxes, work->size, &generator);
        }
        pixman_region_init_rects(i == 0 ? &operands->a : &operands->b, boxes, work->size);
    }
    free(boxes);
    pixman_region_init_rect(&operands->hole, -16384, -16384, 32768, 32768);
}

// pixman has no exclusive-or: it is made of the union less the intersection.
static void exclusive_or(struct operands *operands) {
    pixman_region_init(&operands->common);
    pixman_region_intersect(&operands->common, &operands->into, &operands->b);
    pixman_region_union(&operands->into, &operands->into, &operands->b);
    pixman_region_subtract(&operands->into, &operands->into, &operands->common);
    pixman_region_fini(&operands->common);
}

static void combine(uint32_t operation, struct operands *operands) {
    pixman_region_copy(&operands->into, &operands->a);
    switch (operation) {
    case UNION:
        pixman_region_union(&operands->into, &operands->into, &operands->b);
        break;
    case INTERSECTION:
        pixman_region_intersect(&operands->into, &operands->into, &operands->b);
        break;
    case SYMMETRIC_DIFFERENCE:
        exclusive_or(operands);
        break;
    case DIFFERENCE:
        pixman_region_subtract(&operands->into, &operands->into, &operands->b);
        break;
    case RECTANGLE_DIFFERENCE:
        pixman_region_subtract(&operands->into, &operands->into, &operands->hole);
        break;
    default:
        break;
    }
}

// The like of `lw_bench_regions`: each repetition is done on a fresh copy, whose memory is given back.
static int64_t with_pixman(const void *of, uint32_t repetitions) {
    const struct work *work = of;
    struct operands operands;
    int64_t count = 0;
    make_operands(work, &operands);
    for (uint32_t i = 0; i < repetitions; i++) {
        pixman_region_init(&operands.into);
        combine(work->operation, &operands);
        count = pixman_region_n_rects(&operands.into);
        pixman_region_fini(&operands.into);
    }
    pixman_region_fini(&operands.a);
    pixman_region_fini(&operands.b);
    pixman_region_fini(&operands.hole);
    return count;
}

// What a copy can't do without: as many bytes as its rectangles have are taken, written and given back.
static int64_t with_memory(const void *of, uint32_t repetitions) {
    const struct work *work = of;
    struct operands operands;
    make_operands(work, &operands);
    int count = 0;
    const pixman_box16_t *boxes = pixman_region_rectangles(&operands.a, &count);
    size_t bytes = (size_t)count * sizeof *boxes;
    for (uint32_t i = 0; i < repetitions; i++) {
        void *made = malloc(bytes);
        if (!made) {
            exit(2);
        }
        memcpy(made, boxes, bytes);
        __asm__ volatile("" : : "r"(made) : "memory");
        free(made);
    }
    pixman_region_fini(&operands.a);
    pixman_region_fini(&operands.b);
    pixman_region_fini(&operands.hole);
    return count;
}

static int64_t with_ours(const void *of, uint32_t repetitions) {
    const struct work *work = of;
    return lw_bench_regions(work->shape, work->size, work->operation, repetitions, work->seed);
}

static int compare(const struct work *work) {
    double seconds[2];
    int64_t ours = with_ours(work, 1);
    int64_t theirs = with_pixman(work, 1);
    time_both(with_ours, with_pixman, work, seconds);
    printf("| %s | %u | %s | %lld | %.3f | %.3f | %.2f |", SHAPE_NAMES[work->shape], (unsigned)work->size,
           OPERATION_NAMES[work->operation], (long long)ours, seconds[0] * 1e6, seconds[1] * 1e6, seconds[0] / seconds[1]);
    if (work->operation == COPY) {
        time_both(with_memory, with_pixman, work, seconds);
        printf(" %.3f |", seconds[0] * 1e6);
    } else {
        printf(" |");
    }
    puts(ours == theirs ? "" : " DISAGREES");
    fflush(stdout);
    return ours != theirs;
}

int bench_regions(void) {
    static const uint16_t sizes[4] = {10, 100, 1000, 10000};
    int disagreements = 0;
    puts("| shape | boxes | operation | rectangles of the result | ours, microseconds | pixman, microseconds | ratio | "
         "malloc, memcpy and free, microseconds |");
    puts("|---|---|---|---|---|---|---|---|");
    for (uint32_t shape = 0; shape < 2; shape++) {
        for (uint32_t operation = 0; operation < OPERATIONS; operation++) {
            for (int i = 0; i < 4; i++) {
                struct work work = {shape, sizes[i], operation, 1};
                disagreements += compare(&work);
            }
        }
    }
    return disagreements;
}
