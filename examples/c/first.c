/* A desk, a layer on it, a square in the layer, and one of its pixels read. It prints: pen 2. */
#include <layers.h>
#include <stdio.h>

int main(void)
{
    static const struct lw_glyphs glyphs = {{{0}}}; /* of text; all cells are empty */
    struct lw_sizes sizes = {64, 32, 2, 4};         /* columns, rows, bit planes, slots */
    struct lw_desk desk = LW_NO_DESK;
    uint64_t pen = 0;
    bool is_read = lw_desk_open(&desk, &sizes, &glyphs) == LW_DONE
                   && lw_create_upfront_layer(&desk, 0, 8, 4, 39, 19, LW_SMART) == LW_OK
                   && lw_set_a_pen(&desk, 0, 2) == LW_OK && lw_rect_fill(&desk, 0, 0, 0, 7, 7) == LW_OK
                   && lw_read_pixel(&desk, 0, 3, 3, &pen) == LW_PEN;
    lw_desk_close(&desk);
    printf("pen %u\n", (unsigned)pen);
    return !is_read;
}
