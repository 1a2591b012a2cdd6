/* Three windows on a screen of 160 by 100 pixels with 2 bit planes. The front one is dragged over the others for 60 steps. At
 * each step the pixels that it gains or leaves are damage, and what shows there is painted again: of each window behind it the
 * part that those in front leave. Every tenth picture is written as PPM: windows DIRECTORY. */
#include "ppm.h"
#include <layers.h>

enum { WIDTH = 160, HEIGHT = 100, STEP = WIDTH / 8, PLANES = 2, WINDOWS = 3, MOST = 64 };

struct region {
    struct lw_rectangle rects[MOST];
    size_t count;
};

static uint8_t planes[PLANES][STEP * HEIGHT];

/* From the front to the back, with the pens 1 to 3; pen 0 is the desktop's. */
static struct lw_rectangle windows[WINDOWS] = {{4, 6, 43, 35}, {30, 20, 109, 69}, {70, 40, 149, 89}};

static void must(int32_t answer)
{
    if (answer < 0) {
        fprintf(stderr, "windows: %s\n", lw_text_of(answer));
        exit(1);
    }
}

/* Gives the pixels of a region a pen: the same bits of all its rows in each plane. */
static void paint(const struct region *region, unsigned pen)
{
    for (size_t i = 0; i < region->count; i++) {
        struct lw_rectangle r = region->rects[i];
        uint32_t rows = (uint32_t)(r.max_y - r.min_y + 1), columns = (uint32_t)(r.max_x - r.min_x + 1);
        size_t first = (size_t)r.min_y * STEP;
        for (unsigned p = 0; p < PLANES; p++)
            must(lw_block_fill(planes[p] + first, sizeof planes[p] - first, STEP, rows, (uint32_t)r.min_x, columns,
                               (pen >> p & 1) != 0));
    }
}

/* Paints what shows of the damage: each window what those before it left, and the desktop the rest. */
static void redraw(struct region damage)
{
    for (unsigned i = 0; i < WINDOWS; i++) {
        struct region shown, rest;
        must(lw_region_intersection(damage.rects, damage.count, &windows[i], 1, shown.rects, MOST, &shown.count));
        must(lw_region_difference(damage.rects, damage.count, &windows[i], 1, rest.rects, MOST, &rest.count));
        paint(&shown, i + 1);
        damage = rest;
    }
    paint(&damage, 0);
}

static void write_picture(const char *directory, int number)
{
    static const char colours[4][4] = {"\x20\x40\x60", "\xff\x88\x00", "\xff\xff\xff", "\x00\x22\x44"};
    static uint8_t pens[WIDTH * HEIGHT];
    for (size_t place = 0; place < sizeof pens; place++) {
        unsigned shift = 7 - place % 8, low = planes[0][place / 8] >> shift & 1, high = planes[1][place / 8] >> shift & 1;
        pens[place] = (uint8_t)(2 * high + low);
    }
    write_ppm(directory, "windows", number, WIDTH, HEIGHT, pens, colours);
}

int main(int argc, char **argv)
{
    const char *directory = argc > 1 ? argv[1] : ".";
    struct region screen = {{{0, 0, WIDTH - 1, HEIGHT - 1}}, 1};
    redraw(screen);
    for (int step = 0; step < 60; step++) {
        struct lw_rectangle before = windows[0];
        struct region damage;
        windows[0].min_x = (int16_t)(windows[0].min_x + 1);
        windows[0].max_x = (int16_t)(windows[0].max_x + 1);
        windows[0].min_y = (int16_t)(windows[0].min_y + step % 2);
        windows[0].max_y = (int16_t)(windows[0].max_y + step % 2);
        must(lw_region_symmetric_difference(&before, 1, &windows[0], 1, damage.rects, MOST, &damage.count));
        redraw(damage);
        if (step % 10 == 9)
            write_picture(directory, step / 10);
    }
    return 0;
}
