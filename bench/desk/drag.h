// The drag that drag.c and drag_x.c make: a window of 400 by 300 pixels, with bars of eight pens, over two others, on a screen of
// 1024 by 768 with 8 bits a pixel. It goes 200 steps of 2 columns and 1 row, and back.
#include <stdint.h>
#include <stdio.h>
#include <stdlib.h>
#include <time.h>

enum { WIDTH = 1024, HEIGHT = 768, W = 400, H = 300, WINDOWS = 3, STEPS = 200, DX = 2, DY = 1, BARS = 8, RUNS = 5 };

// The left and top edges; window 0 is in front. The others have the pens 1 and 2, and the bars pens from 16 on.
static const int places[WINDOWS][2] = {{60, 40}, {200, 150}, {450, 350}};
enum { FIRST_BAR = 16 };

// The part of the screen that a step changes, where the window's corner was before it.
struct part {
    int x, y, w, h;
};

static inline struct part changed(int x, int y, int dx, int dy)
{
    struct part part = {dx < 0 ? x + dx : x, dy < 0 ? y + dy : y, W + abs(dx), H + abs(dy)};
    return part;
}

// Seconds of the clock.
static inline double seconds(void)
{
    struct timespec time;
    clock_gettime(CLOCK_MONOTONIC, &time);
    return (double)time.tv_sec + (double)time.tv_nsec * 1e-9;
}

static inline uint32_t digest(uint32_t sum, const uint8_t *bytes, size_t count)
{
    for (size_t i = 0; i < count; i++) {
        sum = sum * 31 + bytes[i];
    }
    return sum;
}

// Makes a step from where the window is, and paints what is damaged by it. `read` is how the changed part is then read.
typedef void step(int x, int y, int dx, int dy, int read);

// Prints the steps a second of the fastest run.
static inline void print_drag(const char *name, step *make, int read)
{
    double best = 1e9;
    for (int run = 0; run < RUNS; run++) {
        double start = seconds();
        for (int i = 0; i < STEPS; i++) {
            make(places[0][0] + DX * i, places[0][1] + DY * i, DX, DY, read);
        }
        for (int i = STEPS; i > 0; i--) {
            make(places[0][0] + DX * i, places[0][1] + DY * i, -DX, -DY, read);
        }
        double taken = seconds() - start;
        best = taken < best ? taken : best;
    }
    printf("| %s | %.0f | %.1f |\n", name, 2 * STEPS / best, best / (2 * STEPS) * 1e6);
    fflush(stdout);
}
