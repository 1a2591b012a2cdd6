/* Three windows on a desk of 160 by 100 pixels with 2 bit planes. The front one is dragged over the others for 100 steps. What a
 * window lost while it was covered is its damage; between begin and end nothing else of it can be drawn on. Every tenth picture
 * is written as PPM, and only what changed since the one before is read: desk DIRECTORY. */
#include "ppm.h"
#include <layers.h>

enum { WIDTH = 160, HEIGHT = 100, WINDOWS = 3 };

static struct lw_desk desk = LW_NO_DESK;

/* The left and top edges, the right and bottom ones; window 2 is in front. */
static const int32_t box[WINDOWS][4] = {{70, 40, 149, 89}, {30, 20, 109, 69}, {4, 6, 43, 35}};

static void must(int32_t answer)
{
    if (answer < 0 || answer >= LW_NOT_OPEN) {
        fprintf(stderr, "desk: %s\n", lw_reply_text(answer));
        exit(1);
    }
}

/* Paints what is damaged: a window's whole area is filled, and the desk lets through what has to be painted again. */
static void redraw(uint32_t window)
{
    must(lw_begin_update(&desk, window));
    must(lw_set_rast(&desk, window, window + 1));
    must(lw_end_update(&desk, window, true));
}

/* The screen as it was when the list of its changes was last read; nothing was shown before. */
static uint8_t picture[WIDTH * HEIGHT];

static void copy_rectangle(const struct lw_rectangle *part)
{
    static uint8_t pens[WIDTH * HEIGHT];
    size_t width = (size_t)(part->max_x - part->min_x + 1);
    must(lw_desk_pens(&desk, part, pens, sizeof pens));
    for (int y = part->min_y; y <= part->max_y; y++)
        memcpy(picture + y * WIDTH + part->min_x, pens + (size_t)(y - part->min_y) * width, width);
}

static void write_picture(const char *directory, int number)
{
    static const char colours[4][4] = {"\x20\x40\x60", "\x00\x22\x44", "\xff\xff\xff", "\xff\x88\x00"};
    struct lw_rectangle changed[16];
    size_t count;
    must(lw_desk_changed(&desk, changed, 16, &count));
    for (size_t i = 0; i < count; i++)
        copy_rectangle(&changed[i]);
    write_ppm(directory, "desk", number, WIDTH, HEIGHT, picture, colours);
}

int main(int count, char **words)
{
    static const struct lw_glyphs glyphs = {{{0}}};
    struct lw_sizes sizes = {WIDTH, HEIGHT, 2, WINDOWS};
    if (count != 2) {
        fprintf(stderr, "desk: give it a directory\n");
        return 2;
    }
    must(lw_desk_open(&desk, &sizes, &glyphs));
    for (uint32_t i = 0; i < WINDOWS; i++) {
        must(lw_create_upfront_layer(&desk, i, box[i][0], box[i][1], box[i][2], box[i][3], LW_SIMPLE));
        must(lw_set_rast(&desk, i, i + 1));
    }
    for (int step = 0; step <= 100; step++) {
        must(lw_move_layer(&desk, WINDOWS - 1, 1, step % 2));
        for (uint32_t i = 0; i < WINDOWS; i++)
            redraw(i);
        if (step % 10 == 0)
            write_picture(words[1], step / 10);
    }
    must(lw_desk_close(&desk));
    if (lw_move_layer(&desk, 0, 1, 1) != LW_CLOSED)
        return 1;
    return 0;
}
