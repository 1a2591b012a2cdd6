// The drag on a desk of the library: after each step the damage of the windows is read and painted again, and what changed of the
// screen is read by the desk's own list, as a port reads it that shows it on a display of its own. At the end of the first drag that
// display has to show the screen.
#include "drag.h"
#include <layers.h>

enum { NOTHING, PLANES, PENS };

static struct lw_desk desk = LW_NO_DESK;
static uint8_t bytes[WIDTH * HEIGHT], shown[WIDTH * HEIGHT];
static unsigned long damaged;

static void must(int32_t answer)
{
    if (answer < 0 || answer >= LW_NOT_OPEN) {
        fprintf(stderr, "drag: %s\n", lw_reply_text(answer));
        exit(1);
    }
}

static void open_desk(void)
{
    static const struct lw_glyphs glyphs;
    struct lw_sizes sizes = {WIDTH, HEIGHT, 8, WINDOWS};
    must(lw_desk_open(&desk, &sizes, &glyphs));
    for (uint32_t i = WINDOWS; i-- > 0;) {
        int x = places[i][0], y = places[i][1];
        must(lw_create_upfront_layer(&desk, i, x, y, x + W - 1, y + H - 1, LW_SIMPLE));
        must(lw_begin_update(&desk, i));
        must(lw_end_update(&desk, i, true));
        must(lw_set_a_pen(&desk, i, i));
        must(lw_rect_fill(&desk, i, 0, 0, W - 1, H - 1));
    }
    for (uint32_t i = 0; i < BARS; i++) {
        must(lw_set_a_pen(&desk, 0, FIRST_BAR + i));
        must(lw_rect_fill(&desk, 0, (int32_t)i * W / BARS, 0, (int32_t)(i + 1) * W / BARS - 1, H - 1));
    }
}

// Paints each rectangle of a window's damage.
static void paint(uint32_t window)
{
    struct lw_rectangle rects[64];
    size_t count;
    must(lw_desk_damage(&desk, window, rects, 64, &count));
    if (count == 0) {
        return;
    }
    must(lw_begin_update(&desk, window));
    for (size_t i = 0; i < count; i++) {
        must(lw_rect_fill(&desk, window, rects[i].min_x, rects[i].min_y, rects[i].max_x, rects[i].max_y));
    }
    must(lw_end_update(&desk, window, true));
    damaged += count;
}

// Shows on `shown` the pens of a rectangle of the screen, as a port does with a display of its own.
static void show(const struct lw_rectangle *rect)
{
    int w = rect->max_x - rect->min_x + 1;
    must(lw_desk_pens(&desk, rect, bytes, sizeof bytes));
    for (int y = rect->min_y; y <= rect->max_y; y++) {
        memcpy(shown + y * WIDTH + rect->min_x, bytes + (y - rect->min_y) * w, (size_t)w);
    }
}

// Reads what changed of the screen since the last time, as the desk tells it.
static void read_changed(int read)
{
    struct lw_rectangle rects[16];
    size_t count, size;
    must(lw_desk_changed(&desk, rects, 16, &count));
    for (size_t i = 0; i < count; i++) {
        if (read == PLANES) {
            must(lw_desk_planes(&desk, &rects[i], bytes, sizeof bytes, &size));
        } else {
            show(&rects[i]);
        }
    }
}

static void make(int x, int y, int dx, int dy, int read)
{
    (void)x;
    (void)y;
    must(lw_move_layer(&desk, 0, dx, dy));
    paint(1);
    paint(2);
    if (read != NOTHING) {
        read_changed(read);
    }
}

int main(void)
{
    static const struct lw_rectangle screen = {0, 0, WIDTH - 1, HEIGHT - 1};
    open_desk();
    for (int i = 0; i < STEPS; i++) {
        make(places[0][0] + DX * i, places[0][1] + DY * i, DX, DY, PENS);
    }
    printf("rectangles %lu\n", damaged);
    must(lw_desk_pens(&desk, &screen, bytes, sizeof bytes));
    printf("screen %u\n", (unsigned)digest(0, bytes, sizeof bytes));
    if (memcmp(bytes, shown, sizeof bytes) != 0) {
        fprintf(stderr, "drag: what the desk told to have changed isn't all that did\n");
        return 1;
    }
    must(lw_move_layer(&desk, 0, -STEPS * DX, -STEPS * DY));
    paint(1);
    paint(2);
    print_drag("here, moved and painted", make, NOTHING);
    print_drag("here, and what changed read as planes", make, PLANES);
    print_drag("here, and what changed read as pens", make, PENS);
    must(lw_desk_close(&desk));
    return 0;
}
