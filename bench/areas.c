// The rectangles of filled polygons beside the same work in C.
#include "bench.h"

#include <stdio.h>
#include <stdlib.h>
#include <string.h>

enum shape { TRIANGLE, ARROWHEAD, RANDOM, SHAPES };

enum { MOST = 32, ROWS = 6000 };

static const char *const NAMES[SHAPES] = {
    "triangle of 10,000 pixels", "arrowhead of 10,000 pixels", "32 points over 6,000 rows",
};

struct point {
    int32_t x, y;
};

struct polygon {
    uint32_t count;
    struct point points[MOST];
};

struct rectangle {
    int16_t min_x, min_y, max_x, max_y;
};

// The columns at which a row's runs begin and end, from left to right.
struct row {
    uint32_t count;
    int32_t columns[MOST];
};

struct made {
    struct rectangle *rectangles;
    size_t count, room;
};

struct work {
    uint32_t shape;
    uint32_t seed;
};

static struct point point_at(uint32_t column, uint32_t row) {
    struct point made = {(int32_t)column - 2048, (int32_t)row - 2048};
    return made;
}

static struct polygon polygon_of(const struct work *work) {
    struct generator generator = {work->seed};
    struct polygon triangle = {3, {point_at(2124, 2048), point_at(2200, 2180), point_at(2048, 2180)}};
    struct polygon arrowhead = {
        4, {point_at(2048, 2048), point_at(2211, 2130), point_at(2048, 2212), point_at(2089, 2130)}};
    struct polygon random = {MOST, {{0, 0}}};
    if (work->shape != RANDOM) {
        return work->shape == TRIANGLE ? triangle : arrowhead;
    }
    random.points[0] = point_at(below(&generator, ROWS), 0);
    for (int i = 1; i < MOST - 1; i++) {
        uint32_t column = below(&generator, ROWS);
        random.points[i] = point_at(column, below(&generator, ROWS));
    }
    random.points[MOST - 1] = point_at(below(&generator, ROWS), ROWS);
    return random;
}

// Takes a column to those of a row, or out of them where it is among them.
static void toggle(struct row *row, int32_t column) {
    uint32_t place = 0;
    while (place < row->count && row->columns[place] < column) {
        place++;
    }
    int32_t *at = row->columns + place;
    size_t behind = (row->count - place) * sizeof *at;
    if (behind > 0 && *at == column) {
        memmove(at, at + 1, behind - sizeof *at);
        row->count--;
        return;
    }
    memmove(at + 1, at, behind);
    *at = column;
    row->count++;
}

// The first column that isn't left of where an edge crosses the row.
static void cross(struct row *row, struct point a, struct point b, int32_t y) {
    if (a.y > b.y) {
        struct point c = a;
        a = b;
        b = c;
    }
    if (a.y <= y && y < b.y) {
        int64_t height = b.y - a.y;
        int64_t sum = (int64_t)(y - a.y) * (b.x + 2048) + (b.y - y) * (int64_t)(a.x + 2048);
        toggle(row, (int32_t)((sum + height - 1) / height) - 2048);
    }
}

static void push(struct made *made, struct rectangle rectangle) {
    if (made->count == made->room) {
        made->room = made->room == 0 ? 4 : 2 * made->room;
        made->rectangles = realloc(made->rectangles, made->room * sizeof rectangle);
        if (!made->rectangles) {
            exit(2);
        }
    }
    made->rectangles[made->count++] = rectangle;
}

// The rectangles, from the top down: a row with the runs of the one above it makes these one row higher.
static void fill(const struct polygon *polygon, struct made *made) {
    struct row rows[2] = {{0, {0}}, {0, {0}}};
    int32_t top = 4095, bottom = -2048;
    for (uint32_t i = 0; i < polygon->count; i++) {
        int32_t y = polygon->points[i].y;
        top = y < top ? y : top;
        bottom = y > bottom ? y : bottom;
    }
    for (int32_t y = top; y < bottom; y++) {
        struct row *row = &rows[y & 1], *above = &rows[~y & 1];
        row->count = 0;
        for (uint32_t i = 0; i < polygon->count; i++) {
            cross(row, polygon->points[i], polygon->points[(i + 1) % polygon->count], y);
        }
        uint32_t runs = row->count / 2;
        if (row->count == above->count && memcmp(row->columns, above->columns, row->count * sizeof *row->columns) == 0) {
            for (uint32_t i = 0; i < runs; i++) {
                made->rectangles[made->count - runs + i].max_y = (int16_t)y;
            }
            continue;
        }
        for (uint32_t i = 0; i < runs; i++) {
            int16_t first = (int16_t)row->columns[2 * i], last = (int16_t)(row->columns[2 * i + 1] - 1);
            push(made, (struct rectangle){first, (int16_t)y, last, (int16_t)y});
        }
    }
}

static int64_t with_c(const void *of, uint32_t repetitions) {
    struct polygon polygon = polygon_of(of);
    int64_t count = 0;
    for (uint32_t i = 0; i < repetitions; i++) {
        struct made made = {NULL, 0, 0};
        fill(&polygon, &made);
        count = (int64_t)made.count;
        free(made.rectangles);
    }
    return count;
}

static int64_t with_ours(const void *of, uint32_t repetitions) {
    const struct work *work = of;
    return lw_bench_areas(work->shape, repetitions, work->seed);
}

int bench_areas(void) {
    int disagreements = 0;
    puts("| area | rectangles | ours, microseconds | the same in C, microseconds | ratio | areas a second |");
    puts("|---|---|---|---|---|---|");
    for (uint32_t shape = 0; shape < SHAPES; shape++) {
        struct work work = {shape, 1};
        double seconds[2];
        int64_t ours = with_ours(&work, 1);
        int disagree = ours != with_c(&work, 1);
        time_both(with_ours, with_c, &work, seconds);
        printf("| %s | %lld | %.2f | %.2f | %.2f | %.0f |%s\n", NAMES[shape], (long long)ours, seconds[0] * 1e6, seconds[1] * 1e6,
               seconds[0] / seconds[1], 1 / seconds[0], disagree ? " DISAGREES" : "");
        fflush(stdout);
        disagreements += disagree;
    }
    return disagreements;
}
