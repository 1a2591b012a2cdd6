// Calls through the handle beside the same calls in Rattle, which bench/drawing.c times too: a call here fills a struct lw_call
// in, hands it in with the handle, and gets its reply; there the call is made before the repetitions. Both sides end with the
// same screen.
#include "../bench.h"
#include <layers.h>
#include <stdio.h>
#include <stdlib.h>

enum shape { SQUARE, LINES, TEXT = 8, FRONTS = 100 };

struct work {
    uint32_t shape, planes, calls;
    int16_t side; // of fronts, how many layers
};

static void must(int32_t answer)
{
    if (answer < 0 || answer >= LW_NOT_OPEN) {
        fprintf(stderr, "handle: %s\n", lw_reply_text(answer));
        exit(1);
    }
}

static int64_t in_rattle(const void *of, uint32_t repetitions)
{
    const struct work *work = of;
    if (work->shape == FRONTS) {
        return lw_bench_fronts(30, (uint32_t)work->side, repetitions);
    }
    return lw_bench_drawing(work->shape, work->side, work->planes, repetitions);
}

static void open_desk(struct lw_desk *desk, const struct work *work)
{
    static struct lw_glyphs glyphs;
    bool fronts = work->shape == FRONTS;
    struct lw_sizes sizes = {fronts ? 1024 : 640, fronts ? 768 : 512, work->planes, 30};
    memset(&glyphs, 0x5a, sizeof glyphs);
    must(lw_desk_open(desk, &sizes, &glyphs));
    for (uint32_t i = 0; fronts && i < (uint32_t)work->side; i++) {
        int32_t x = (int32_t)(i * 53 % 790), y = (int32_t)(i * 37 % 540);
        must(lw_create_upfront_layer(desk, i, x, y, x + 199, y + 199, LW_SMART));
    }
    for (uint32_t i = 2; !fronts && i-- > 0;) {
        must(lw_create_upfront_layer(desk, i, 0, 0, 639, 511, LW_SMART));
    }
}

static void repeat(struct lw_desk *desk, const struct work *work)
{
    static const char letters[] = "ABCDEFGHIJKLMNOPQRSTUVWXYZABCDEFGHIJKLMNOPQRSTUVWXYZABCDEFGHIJKLMNOPQRSTUVWXYZAB";
    switch (work->shape) {
    case SQUARE:
        must(lw_rect_fill(desk, 0, 3, 3, 2 + work->side, 2 + work->side));
        return;
    case LINES:
        must(lw_draw(desk, 0, 99, work->side));
        must(lw_draw(desk, 0, 0, 0));
        return;
    case TEXT:
        must(lw_move(desk, 0, 0, 6));
        must(lw_text(desk, 0, letters));
        return;
    default:
        for (uint32_t i = 0; i < (uint32_t)work->side; i++) {
            must(lw_upfront_layer(desk, i));
        }
    }
}

// The screen as one number, by its planes, as lw_bench_drawing makes it.
static int64_t digest(struct lw_desk *desk, const struct work *work)
{
    static uint8_t planes[1024 * 768];
    bool fronts = work->shape == FRONTS;
    struct lw_rectangle screen = {0, 0, fronts ? 1023 : 639, fronts ? 767 : 511};
    size_t count;
    uint32_t sum = 0;
    must(lw_desk_planes(desk, &screen, planes, sizeof planes, &count));
    for (size_t i = 0; i < count; i++) {
        sum = sum * 31 + planes[i];
    }
    return sum;
}

static int64_t by_handle(const void *of, uint32_t repetitions)
{
    const struct work *work = of;
    struct lw_desk desk = LW_NO_DESK;
    open_desk(&desk, work);
    for (uint32_t i = 0; i < repetitions; i++) {
        repeat(&desk, work);
    }
    int64_t sum = digest(&desk, work);
    must(lw_desk_close(&desk));
    return sum;
}

static int print_line(const char *name, struct work work)
{
    double seconds[2];
    int differ = in_rattle(&work, 3) != by_handle(&work, 3);
    time_both(by_handle, in_rattle, &work, seconds);
    double handle = seconds[0] / work.calls * 1e9, rattle = seconds[1] / work.calls * 1e9;
    printf("| %s | %u | %.0f | %.0f | %.0f |%s\n", name, (unsigned)work.planes, handle, rattle, handle - rattle,
           differ ? " the screens differ" : "");
    fflush(stdout);
    return differ;
}

int main(void)
{
    int differ = 0;
    puts("| call | planes | by the handle, nanoseconds | in Rattle | more |");
    puts("|---|---|---|---|---|");
    for (uint32_t planes = 2; planes <= 8; planes += 6) {
        differ += print_line("fill of 10 by 10", (struct work){SQUARE, planes, 1, 10});
        differ += print_line("fill of 100 by 100", (struct work){SQUARE, planes, 1, 100});
        differ += print_line("line of 100 pixels", (struct work){LINES, planes, 2, 37});
        differ += print_line("text of 80 letters, and its place", (struct work){TEXT, planes, 2, 0});
    }
    differ += print_line("front of 3 layers of 200 by 200", (struct work){FRONTS, 8, 3, 3});
    differ += print_line("front of 20 layers of 200 by 200", (struct work){FRONTS, 8, 20, 20});
    return differ > 0;
}
