/* Each verb of a desk, with the answer that the manual's call has, and every error but want of memory. So the header's structs
 * and numbers are those of the library. */
#include <layers.h>
#include <stdio.h>
#include <stdlib.h>

static struct lw_desk desk = LW_NO_DESK;
static uint64_t number;

static void expect(int32_t answer, int32_t wanted, int line)
{
    if (answer != wanted) {
        fprintf(stderr, "check_desk: line %d: %d in place of %d\n", line, (int)answer, (int)wanted);
        exit(1);
    }
}

#define IS(call, wanted) expect(call, wanted, __LINE__)
#define SAYS(call, wanted, said) (IS(call, wanted), expect((int32_t)number, said, __LINE__))

static void open_it(void)
{
    static struct lw_glyphs glyphs;
    struct lw_sizes sizes = {64, 32, 9, 4};
    struct lw_call call = lw_new_call(LW_NO_CALL, 0);
    IS(lw_do(&desk, &call), LW_CLOSED);
    IS(lw_desk_close(&desk), LW_CLOSED);
    IS(lw_desk_open(&desk, &sizes, &glyphs), LW_BAD_SIZES);
    sizes.depth = 2;
    sizes.slots = 1025;
    IS(lw_desk_open(&desk, &sizes, &glyphs), LW_BAD_SIZES);
    sizes.slots = 4;
    glyphs.rows['A' - ' '][0] = 0x80;
    IS(lw_desk_open(&desk, &sizes, &glyphs), LW_OK);
    IS(lw_desk_open(&desk, &sizes, &glyphs), LW_IS_OPEN);
    IS(lw_do(&desk, &call), LW_UNFIT);
    call.kind = LW_BLIT + 1;
    IS(lw_do(&desk, &call), LW_UNFIT);
    IS(lw_upfront_layer(&desk, 4), LW_UNFIT);
    IS(lw_upfront_layer(&desk, 3), LW_NOT_OPEN);
    IS(lw_install_layer_hook(&desk, 0, 0), LW_UNFIT);
}

/* Layer 0 has columns 0 to 31 and rows 0 to 15; layer 1 columns 16 to 47 and rows 8 to 23, behind it. */
static void arrange(void)
{
    IS(lw_create_upfront_layer(&desk, 0, 0, 0, 31, 15, LW_SMART), LW_OK);
    IS(lw_create_upfront_layer(&desk, 0, 0, 0, 31, 15, LW_SMART), LW_ALREADY_OPEN);
    IS(lw_create_upfront_layer(&desk, 1, 0, 0, 31, 15, 3), LW_UNFIT);
    IS(lw_create_upfront_layer(&desk, 1, INT32_MIN, 0, INT32_MAX, 15, LW_SMART), LW_UNFIT);
    IS(lw_create_upfront_layer(&desk, 1, 0, INT32_MAX, 31, INT32_MIN, LW_SMART), LW_UNFIT);
    IS(lw_create_upfront_layer(&desk, 1, 0, 0, 65535, 15, LW_SMART), LW_OUT_OF_BOUNDS);
    IS(lw_create_upfront_layer(&desk, 1, 0, 0, 65536, 15, LW_SMART), LW_UNFIT);
    IS(lw_create_behind_layer(&desk, 1, 16, 8, 47, 23, LW_SIMPLE), LW_OK);
    SAYS(lw_which_layer(&desk, 20, 10, &number), LW_LAYER, 0);
    SAYS(lw_which_layer(&desk, 47, 23, &number), LW_LAYER, 1);
    IS(lw_which_layer(&desk, 48, 23, &number), LW_NOTHING);
    IS(lw_upfront_layer(&desk, 1), LW_OK);
    SAYS(lw_which_layer(&desk, 20, 10, &number), LW_LAYER, 1);
    IS(lw_behind_layer(&desk, 1), LW_OK);
    SAYS(lw_which_layer(&desk, 20, 10, &number), LW_LAYER, 0);
    IS(lw_move_layer_in_front_of(&desk, 1, 0), LW_OK);
    SAYS(lw_which_layer(&desk, 20, 10, &number), LW_LAYER, 1);
    IS(lw_move_layer(&desk, 1, 2, -1), LW_OK);
    SAYS(lw_which_layer(&desk, 49, 22, &number), LW_LAYER, 1);
    IS(lw_which_layer(&desk, 49, 23, &number), LW_NOTHING);
    IS(lw_size_layer(&desk, 1, -2, 1), LW_OK);
    SAYS(lw_which_layer(&desk, 47, 23, &number), LW_LAYER, 1);
    IS(lw_which_layer(&desk, 48, 22, &number), LW_NOTHING);
    IS(lw_change_window_box(&desk, 1, 16, 8, 32, 16), LW_OK);
    SAYS(lw_which_layer(&desk, 16, 8, &number), LW_LAYER, 1);
    IS(lw_begin_update(&desk, 1), LW_OK);
    IS(lw_end_update(&desk, 1, true), LW_OK);
    IS(lw_end_update(&desk, 1, true), LW_NOT_IN_UPDATE);
    IS(lw_scroll_layer(&desk, 1, 1, 1), LW_NOT_SUPER);
}

/* Layer 2 shows 8 by 4 pixels of its 16 by 8; layer 3 lies behind all. */
static void create(void)
{
    IS(lw_create_super_bitmap_layer(&desk, 2, 48, 0, 55, 3, 0, 8), LW_UNFIT);
    IS(lw_create_super_bitmap_layer(&desk, 2, 48, 0, 55, 3, 16, 8), LW_OK);
    IS(lw_scroll_layer(&desk, 2, 8, 4), LW_OK);
    IS(lw_scroll_layer(&desk, 2, 1, 0), LW_OUT_OF_BOUNDS);
    IS(lw_delete_layer(&desk, 2), LW_OK);
    IS(lw_create_backdrop_layer(&desk, 3, 0, 0, 63, 31, LW_SIMPLE), LW_OK);
    SAYS(lw_which_layer(&desk, 0, 0, &number), LW_LAYER, 0);
    SAYS(lw_which_layer(&desk, 63, 31, &number), LW_LAYER, 3);
    IS(lw_upfront_layer(&desk, 3), LW_BACKDROP);
    IS(lw_delete_layer(&desk, 3), LW_OK);
}

static void draw(void)
{
    IS(lw_set_a_pen(&desk, 0, 2), LW_OK);
    IS(lw_set_b_pen(&desk, 0, 1), LW_OK);
    IS(lw_set_write_mask(&desk, 0, 3), LW_OK);
    IS(lw_rect_fill(&desk, 0, 0, 0, 3, 3), LW_OK);
    IS(lw_rect_fill(&desk, 0, 3, 3, 0, 0), LW_UNFIT);
    IS(lw_rect_fill(&desk, 0, 65536, 65536, 65539, 65539), LW_UNFIT);
    IS(lw_set_a_pen(&desk, 0, 256), LW_UNFIT);
    IS(lw_set_write_mask(&desk, 0, 256), LW_UNFIT);
    SAYS(lw_read_pixel(&desk, 0, 3, 3, &number), LW_PEN, 2);
    SAYS(lw_read_pixel(&desk, 0, 4, 3, &number), LW_PEN, 0);
    IS(lw_write_pixel(&desk, 0, 5, 6), LW_OK);
    SAYS(lw_read_pixel(&desk, 0, 5, 6, &number), LW_PEN, 2);
    IS(lw_write_pixel(&desk, 0, 32, 6), LW_NOT_WRITABLE);
    IS(lw_move(&desk, 0, 0, 10), LW_OK);
    IS(lw_move(&desk, 0, 40000, 10), LW_UNFIT);
    IS(lw_draw(&desk, 0, 7, 10), LW_OK);
    SAYS(lw_read_pixel(&desk, 0, 7, 10, &number), LW_PEN, 2);
    SAYS(lw_read_pixel(&desk, 0, 8, 10, &number), LW_PEN, 0);
    IS(lw_scroll_raster(&desk, 0, 1, 0, 0, 8, 15, 12), LW_OK);
    SAYS(lw_read_pixel(&desk, 0, 6, 10, &number), LW_PEN, 2);
    SAYS(lw_read_pixel(&desk, 0, 7, 10, &number), LW_PEN, 0);
    IS(lw_scroll_raster(&desk, 0, 1, 0, 0, 8, 65551, 12), LW_UNFIT);
    IS(lw_clip_blit(&desk, 0, 0, 0, 0, 8, 4, 4, 2, LW_COPY_MINTERM + 1), LW_UNFIT);
    IS(lw_clip_blit(&desk, 0, 0, 0, 0, 8, 4, 4, 2, LW_COPY_MINTERM + 256), LW_UNFIT);
    IS(lw_clip_blit(&desk, 0, 0, 0, 0, 8, 4, 4, 2, LW_COPY_MINTERM), LW_OK);
    SAYS(lw_read_pixel(&desk, 0, 11, 5, &number), LW_PEN, 2);
    SAYS(lw_read_pixel(&desk, 0, 11, 6, &number), LW_PEN, 0);
    IS(lw_set_dr_md(&desk, 0, 0), LW_OK);
    IS(lw_set_dr_md(&desk, 0, 8), LW_UNFIT);
    IS(lw_set_dr_md(&desk, 0, 256), LW_UNFIT);
    IS(lw_text(&desk, 0, "A"), LW_OK);
    IS(lw_set_rast(&desk, 0, 1), LW_OK);
    SAYS(lw_read_pixel(&desk, 0, 11, 5, &number), LW_PEN, 1);
}

static void clip(void)
{
    struct lw_rectangle rect = {1, 2, 3, 4}, other = {5, 2, 6, 4}, rects[128];
    IS(lw_clear_region(&desk, 1), LW_OK);
    IS(lw_join_rect_region(&desk, LW_OR, 1, rect), LW_OK);
    IS(lw_join_rect_region(&desk, LW_OR, 2, other), LW_OK);
    IS(lw_join_region_region(&desk, LW_OR, 1, 2), LW_OK);
    IS(lw_join_region_region(&desk, LW_CLEAR, 1, 2), LW_UNFIT);
    IS(lw_install_clip_region(&desk, 0, 2, rects, 128, &number), LW_NOTHING);
    number = 77;
    SAYS(lw_install_clip_region(&desk, 4, 1, rects, 128, &number), LW_UNFIT, 77);
    SAYS(lw_install_clip_region(&desk, 3, 1, rects, 128, &number), LW_NOT_OPEN, 0);
    SAYS(lw_install_clip_region(&desk, 0, 1, rects, 1, &number), LW_RECTANGLES, 2);
    SAYS(lw_install_clip_region(&desk, 0, 1, rects, 128, &number), LW_RECTANGLES, 1);
    IS(rects[0].min_x == 1 && rects[0].min_y == 2 && rects[0].max_x == 3 && rects[0].max_y == 4, 1);
    IS(lw_set_rast(&desk, 0, 2), LW_OK);
    SAYS(lw_read_pixel(&desk, 0, 3, 4, &number), LW_PEN, 2);
    SAYS(lw_read_pixel(&desk, 0, 4, 4, &number), LW_PEN, 1);
    SAYS(lw_remove_clip_region(&desk, 0, rects, 0, &number), LW_RECTANGLES, 1);
    SAYS(lw_remove_clip_region(&desk, 0, rects, 0, &number), LW_NOTHING, 0);
}

static void windows(void)
{
    struct lw_make make = lw_new_make(40, 0, 60, 15, LW_SMART);
    IS(lw_activate_window(&desk, 0), LW_NOT_WINDOW);
    IS(lw_get_message(&desk, 0, &number), LW_NOT_WINDOW);
    IS(lw_set_window_title(&desk, 0, "none"), LW_NOT_WINDOW);
    IS(lw_open_window(&desk, 2, &make, true, false, 32, "first"), LW_UNFIT);
    IS(lw_open_window(&desk, 2, &make, true, false, 256 + 1, "first"), LW_UNFIT);
    IS(lw_open_window(&desk, 2, &make, true, false, 1 << LW_ACTIVE | 1 << LW_CHANGE, "first"), LW_OK);
    while (lw_get_message(&desk, 2, &number) == LW_MESSAGE)
        ;
    IS(lw_move_layer(&desk, 2, 1, 1), LW_OK);
    SAYS(lw_get_message(&desk, 2, &number), LW_MESSAGE, LW_CHANGE);
    IS(lw_get_message(&desk, 2, &number), LW_NOTHING);
    IS(lw_activate_window(&desk, 2), LW_OK);
    IS(lw_set_window_title(&desk, 2, "second"), LW_OK);
    IS(lw_close_window(&desk, 2), LW_OK);
    IS(lw_close_window(&desk, 2), LW_NOT_OPEN);
}

/* ---- Readers, on a desk of 32 by 16 pixels with a bitmap and two hooks. ---- */
static struct lw_rectangle rects[3];
static size_t count;

static struct lw_rectangle bounds_of(int16_t x0, int16_t y0, int16_t x1, int16_t y1)
{
    struct lw_rectangle it = {x0, y0, x1, y1};
    return it;
}

static void expect_rect(struct lw_rectangle it, struct lw_rectangle wanted, int line)
{
    expect(it.min_x, wanted.min_x, line);
    expect(it.min_y, wanted.min_y, line);
    expect(it.max_x, wanted.max_x, line);
    expect(it.max_y, wanted.max_y, line);
}

#define IS_RECT(it, x0, y0, x1, y1) expect_rect(it, bounds_of(x0, y0, x1, y1), __LINE__)

/* A list of so many elements is told. */
#define LISTS(call, wanted, length) (count = 77, IS(call, wanted), expect((int32_t)count, length, __LINE__))

/* Nothing is written where there is no desk. */
static void closed(void)
{
    uint32_t slots[1] = {77};
    uint8_t bytes[1] = {77};
    struct lw_rectangle part = {0, 0, 0, 0};
    rects[0] = bounds_of(7, 7, 7, 7);
    LISTS(lw_desk_layers(&desk, slots, 1, &count), LW_CLOSED, 77);
    IS(lw_desk_bounds(&desk, 0, rects), LW_CLOSED);
    LISTS(lw_desk_visible(&desk, 0, rects, 1, &count), LW_CLOSED, 77);
    LISTS(lw_desk_damage(&desk, 0, rects, 1, &count), LW_CLOSED, 77);
    LISTS(lw_desk_messages(&desk, 0, bytes, 1, &count), LW_CLOSED, 77);
    LISTS(lw_desk_changed(&desk, rects, 1, &count), LW_CLOSED, 77);
    IS(lw_desk_pens(&desk, &part, bytes, 1), LW_CLOSED);
    LISTS(lw_desk_planes(&desk, &part, bytes, 1, &count), LW_CLOSED, 77);
    IS(slots[0], 77);
    IS(bytes[0], 77);
    IS_RECT(rects[0], 7, 7, 7, 7);
}

/* The bitmap has the pens 1 2 3 above 2 1 0, and its padding isn't 0. Hook 0 has two tiles: all of pen 1 but for pen 2 in its
 * corner, and all of pen 3. Hook 1 has a tile of pen 2. */
static void open_with(void)
{
    static struct lw_glyphs glyphs;
    static uint8_t tiles[192];
    uint8_t bits[9] = {0xff, 0xbf, 0xff, 0x40, 0, 0x60, 0, 0x9f, 0};
    struct lw_sizes sizes = {32, 16, 2, 3};
    struct lw_bitmap bitmaps[17] = {{3, 2, 2, 1}};
    struct lw_hook hooks[2] = {{1, 2}, {0, 1}};
    memset(tiles, 2, 64);
    memset(tiles + 64, 1, 64);
    memset(tiles + 128, 3, 64);
    tiles[64] = 2;
#define OPEN(bitmap_count, bits_count, tiles_count) \
    lw_desk_open_with(&desk, &sizes, &glyphs, bitmaps, bitmap_count, bits, bits_count, hooks, 2, tiles, tiles_count)
    sizes.depth = 9;
    IS(OPEN(1, 8, 191), LW_BAD_SIZES);
    sizes.depth = 2;
    IS(OPEN(17, 9, 192), LW_BAD_SIZES);
    IS(OPEN(2, 9, 192), LW_BAD_BITMAP);
    IS(OPEN(1, 8, 191), LW_BAD_BITMAP);
    bitmaps[0].first = UINT32_MAX;
    IS(OPEN(1, 9, 192), LW_BAD_BITMAP);
    bitmaps[0].first = 1;
    bitmaps[0].width = 2049;
    IS(OPEN(1, 9, 192), LW_BAD_BITMAP);
    bitmaps[0].width = 3;
    bitmaps[0].height = 0;
    IS(OPEN(1, 9, 192), LW_BAD_BITMAP);
    bitmaps[0].height = 2;
    bitmaps[0].depth = 9;
    IS(OPEN(1, 9, 192), LW_BAD_BITMAP);
    bitmaps[0].depth = 2;
    IS(OPEN(1, 9, 191), LW_BAD_HOOK);
    hooks[1].count = 0;
    IS(OPEN(1, 9, 192), LW_BAD_HOOK);
    hooks[1].count = UINT32_MAX;
    IS(OPEN(1, 9, 192), LW_BAD_HOOK);
    hooks[1].count = 1;
    IS(OPEN(1, 9, 192), LW_DONE);
    IS(OPEN(1, 9, 192), LW_IS_OPEN);
#undef OPEN
    memset(tiles, 0, sizeof tiles);
    memset(bits, 0, sizeof bits);
}

/* Layer 0, with hook 0, has columns 8 to 23 and rows 4 to 11, the right half of which it got last. Layer 1, in front of it, has
 * columns 20 to 27 and rows 0 to 7. */
static void read_layers(void)
{
    struct lw_make make = lw_new_make(8, 4, 15, 11, LW_SMART);
    uint32_t slots[3] = {77, 77, 77};
    LISTS(lw_desk_layers(&desk, slots, 3, &count), LW_DONE, 0);
    make.has_hook = true;
    make.hook = 2;
    IS(lw_create_layer(&desk, 0, &make), LW_UNFIT);
    make.hook = 0;
    make.kind = LW_SUPER_BITMAP;
    make.bits_w = make.bits_h = 8;
    IS(lw_create_layer(&desk, 0, &make), LW_UNFIT);
    make.kind = LW_SMART;
    make.bits_w = make.bits_h = 0;
    IS(lw_create_layer(&desk, 0, &make), LW_OK);
    IS(lw_size_layer(&desk, 0, 8, 0), LW_OK);
    IS(lw_create_upfront_layer(&desk, 1, 20, 0, 27, 7, LW_SIMPLE), LW_OK);
    LISTS(lw_desk_layers(&desk, slots, 1, &count), LW_NO_ROOM, 2);
    IS(slots[0], 77);
    LISTS(lw_desk_layers(&desk, slots, 3, &count), LW_DONE, 2);
    IS(slots[0] == 1 && slots[1] == 0 && slots[2] == 77, 1);
    IS(lw_desk_bounds(&desk, 0, rects), LW_DONE);
    IS_RECT(rects[0], 8, 4, 23, 11);
    IS(lw_desk_bounds(&desk, 2, rects), LW_NO_LAYER);
    IS(lw_desk_bounds(&desk, 3, rects), LW_UNFIT);
    IS_RECT(rects[0], 8, 4, 23, 11);
    LISTS(lw_desk_visible(&desk, 0, rects, 1, &count), LW_NO_ROOM, 2);
    IS_RECT(rects[0], 8, 4, 23, 11);
    LISTS(lw_desk_visible(&desk, 0, rects, 3, &count), LW_DONE, 2);
    IS_RECT(rects[0], 8, 4, 19, 7);
    IS_RECT(rects[1], 8, 8, 23, 11);
    LISTS(lw_desk_visible(&desk, 2, rects, 3, &count), LW_NO_LAYER, 77);
    LISTS(lw_desk_visible(&desk, 3, rects, 3, &count), LW_UNFIT, 77);
    LISTS(lw_desk_damage(&desk, 0, rects, 3, &count), LW_DONE, 1);
    IS_RECT(rects[0], 8, 0, 15, 7);
    LISTS(lw_desk_damage(&desk, 1, rects, 3, &count), LW_DONE, 0);
    LISTS(lw_desk_damage(&desk, 2, rects, 3, &count), LW_NO_LAYER, 77);
    LISTS(lw_desk_damage(&desk, 3, rects, 3, &count), LW_UNFIT, 77);
    /* Partly off the screen, and back: only what it showed meanwhile is kept. Hook 1 fills the rest. */
    IS(lw_install_layer_hook(&desk, 1, 1), LW_OK);
    IS(lw_move_layer(&desk, 1, 8, -3), LW_OK);
    IS(lw_desk_bounds(&desk, 1, rects), LW_DONE);
    IS_RECT(rects[0], 28, -3, 35, 4);
    LISTS(lw_desk_visible(&desk, 1, rects, 3, &count), LW_DONE, 1);
    IS_RECT(rects[0], 28, 0, 31, 4);
    LISTS(lw_desk_visible(&desk, 0, rects, 3, &count), LW_DONE, 1);
    IS_RECT(rects[0], 8, 4, 23, 11);
    IS(lw_move_layer(&desk, 1, -8, 3), LW_OK);
    LISTS(lw_desk_damage(&desk, 1, rects, 3, &count), LW_DONE, 2);
    IS_RECT(rects[0], 0, 0, 7, 2);
    IS_RECT(rects[1], 4, 3, 7, 7);
}

static void read_pens(void)
{
    static const uint8_t corner[36] = {0, 0, 0, 0, 0, 0, 0, 2, 1, 1, 1, 1, 0, 1, 1, 1, 1, 1,
                                       0, 1, 1, 1, 1, 1, 0, 1, 1, 1, 2, 3, 0, 1, 1, 2, 1, 0};
    static const uint8_t seam[12] = {0, 0, 2, 2, 0, 0, 2, 2, 3, 3, 0, 0};
    static const uint8_t planes[6] = {0, 0, 0xc0, 0x30, 0x30, 0xc0};
    static uint8_t out[512];
    struct lw_rectangle part = bounds_of(7, 3, 12, 8);
    IS(lw_blt_bit_map_rast_port(&desk, 1, 0, 0, 0, 2, 3, 3, 2, LW_COPY_MINTERM), LW_UNFIT);
    IS(lw_blt_bit_map_rast_port(&desk, 0, 0, 0, 0, 2, 3, 3, 2, LW_COPY_MINTERM), LW_OK);
    out[0] = out[36] = 77;
    IS(lw_desk_pens(&desk, &part, out, 35), LW_NO_ROOM);
    IS(out[0], 77);
    IS(lw_desk_pens(&desk, &part, out, sizeof out), LW_DONE);
    IS(memcmp(out, corner, sizeof corner), 0);
    IS(out[36], 77);
    part = bounds_of(22, 6, 25, 8);
    IS(lw_desk_pens(&desk, &part, out, 12), LW_DONE);
    IS(memcmp(out, seam, sizeof seam), 0);
    LISTS(lw_desk_planes(&desk, &part, out, 11, &count), LW_NO_ROOM, 12);
    IS(memcmp(out, seam, sizeof seam), 0);
    LISTS(lw_desk_planes(&desk, &part, out, sizeof out, &count), LW_DONE, 12);
    for (int place = 0; place < 6; place++)
        IS(out[2 * place] & 0xf0, planes[place]);
    IS(out[36], 77);
    part = bounds_of(0, 0, 31, 15);
    IS(lw_desk_pens(&desk, &part, out, 511), LW_NO_ROOM);
    IS(lw_desk_pens(&desk, &part, out, 512), LW_DONE);
    part = bounds_of(5, 5, 4, 40);
    IS(lw_desk_pens(&desk, &part, out, 0), LW_BAD_RECTANGLE);
    LISTS(lw_desk_planes(&desk, &part, out, 0, &count), LW_BAD_RECTANGLE, 77);
    part = bounds_of(31, 15, 32, 15);
    IS(lw_desk_pens(&desk, &part, out, 0), LW_OUTSIDE);
    LISTS(lw_desk_planes(&desk, &part, out, 0, &count), LW_OUTSIDE, 77);
    part = bounds_of(0, -1, 3, 3);
    IS(lw_desk_pens(&desk, &part, out, sizeof out), LW_OUTSIDE);
    /* Hook 1 is taken, so layer 0 has none from then on, and its new row gets pen 0. */
    IS(lw_install_layer_hook(&desk, 0, 1), LW_OK);
    IS(lw_size_layer(&desk, 0, 0, 1), LW_OK);
    part = bounds_of(8, 12, 9, 12);
    out[0] = out[1] = 77;
    IS(lw_desk_pens(&desk, &part, out, 2), LW_DONE);
    IS(out[0] == 0 && out[1] == 0, 1);
}

/* Window 2, which wants all messages, has columns 24 to 31 and rows 8 to 15. */
static void read_messages(void)
{
    struct lw_make make = lw_new_make(24, 8, 31, 15, LW_SMART);
    uint8_t out[7] = {77, 77, 77, 77, 77, 77, 77};
    LISTS(lw_desk_messages(&desk, 0, out, 7, &count), LW_NO_WINDOW, 77);
    LISTS(lw_desk_messages(&desk, 2, out, 7, &count), LW_NO_LAYER, 77);
    LISTS(lw_desk_messages(&desk, 3, out, 7, &count), LW_UNFIT, 77);
    IS(lw_open_window(&desk, 2, &make, false, false, 31, ""), LW_OK);
    LISTS(lw_desk_messages(&desk, 2, out, 7, &count), LW_DONE, 0);
    IS(lw_size_layer(&desk, 2, -1, -1), LW_OK);
    IS(lw_activate_window(&desk, 2), LW_OK);
    LISTS(lw_desk_messages(&desk, 2, out, 2, &count), LW_NO_ROOM, 3);
    IS(out[0], 77);
    LISTS(lw_desk_messages(&desk, 2, out, 7, &count), LW_DONE, 3);
    IS(out[0] == LW_NEW_SIZE && out[1] == LW_CHANGE && out[2] == LW_ACTIVE && out[3] == 77, 1);
    IS(lw_size_layer(&desk, 2, 1, 1), LW_OK);
    SAYS(lw_get_message(&desk, 2, &number), LW_MESSAGE, LW_NEW_SIZE);
    LISTS(lw_desk_messages(&desk, 2, out, 7, &count), LW_DONE, 5);
    IS(out[0] == LW_CHANGE && out[1] == LW_ACTIVE && out[2] == LW_NEW_SIZE && out[3] == LW_CHANGE && out[4] == LW_REFRESH, 1);
    LISTS(lw_desk_damage(&desk, 2, rects, 3, &count), LW_DONE, 2);
    IS_RECT(rects[0], 7, 0, 7, 6);
    IS_RECT(rects[1], 0, 7, 7, 7);
}

/* ---- Where the screen changed, on a desk of 64 by 32 pixels. Layer i of 17 has columns 3i and 3i + 1, rows 0 and 1. ---- */
static struct lw_rectangle changes[17];

#define CHANGES(length) LISTS(lw_desk_changed(&desk, changes, 16, &count), LW_DONE, length)

static void create_small(uint32_t slot)
{
    int32_t x = 3 * (int32_t)slot;
    IS(lw_create_upfront_layer(&desk, slot, x, 0, x + 1, 1, LW_SMART), LW_OK);
}

/* A list as long as it can be: it's kept where there is no room, and read but once. */
static void read_sixteen(void)
{
    CHANGES(0);
    for (uint32_t slot = 0; slot < 16; slot++)
        create_small(slot);
    changes[0] = changes[16] = bounds_of(7, 7, 7, 7);
    LISTS(lw_desk_changed(&desk, changes, 15, &count), LW_NO_ROOM, 16);
    IS_RECT(changes[0], 7, 7, 7, 7);
    CHANGES(16);
    for (int16_t i = 0; i < 16; i++)
        IS_RECT(changes[i], 3 * i, 0, 3 * i + 1, 1);
    IS_RECT(changes[16], 7, 7, 7, 7);
    CHANGES(0);
    LISTS(lw_desk_changed(&desk, changes, 0, &count), LW_DONE, 0);
    create_small(16);
    CHANGES(1);
    IS_RECT(changes[0], 48, 0, 49, 1);
}

/* One rectangle has all where 16 aren't enough. What lies in another isn't listed again. */
static void read_many(void)
{
    for (uint32_t slot = 0; slot < 17; slot++)
        IS(lw_set_rast(&desk, slot, 1), LW_OK);
    CHANGES(1);
    IS_RECT(changes[0], 0, 0, 49, 1);
    IS(lw_rect_fill(&desk, 0, 0, 0, 1, 1), LW_OK);
    IS(lw_write_pixel(&desk, 0, 1, 1), LW_OK);
    CHANGES(1);
    IS_RECT(changes[0], 0, 0, 1, 1);
}

/* A layer changes the screen where it lay and where it lies, of which only what is on the screen is listed; and other calls
 * change none of it. */
static void read_moves(void)
{
    IS(lw_move_layer(&desk, 3, 1, 4), LW_OK);
    CHANGES(2);
    IS_RECT(changes[0], 9, 0, 10, 1);
    IS_RECT(changes[1], 10, 4, 11, 5);
    IS(lw_move_layer(&desk, 0, -1, 2), LW_OK);
    CHANGES(2);
    IS_RECT(changes[0], 0, 0, 1, 1);
    IS_RECT(changes[1], 0, 2, 0, 3);
    IS(lw_move_layer(&desk, 0, -1, 0), LW_OK);
    CHANGES(1);
    IS_RECT(changes[0], 0, 2, 0, 3);
    IS(lw_set_a_pen(&desk, 3, 2), LW_OK);
    SAYS(lw_read_pixel(&desk, 3, 0, 0, &number), LW_PEN, 1);
    SAYS(lw_which_layer(&desk, 10, 4, &number), LW_LAYER, 3);
    IS(lw_upfront_layer(&desk, 17), LW_NOT_OPEN);
    CHANGES(0);
}

/* Window 17 has columns 0 to 29 and rows 10 to 29. Its frame may be painted where a layer is moved over it. */
static void read_frames(void)
{
    struct lw_make make = lw_new_make(0, 10, 29, 29, LW_SIMPLE);
    IS(lw_open_window(&desk, 17, &make, true, false, 0, "w"), LW_OK);
    CHANGES(1);
    IS_RECT(changes[0], 0, 10, 29, 29);
    IS(lw_activate_window(&desk, 17), LW_OK);
    IS(lw_set_window_title(&desk, 17, "v"), LW_OK);
    CHANGES(1);
    IS_RECT(changes[0], 0, 10, 29, 29);
    IS(lw_upfront_layer(&desk, 16), LW_OK);
    IS(lw_move_layer(&desk, 16, -46, 12), LW_OK);
    CHANGES(3);
    IS_RECT(changes[0], 48, 0, 49, 1);
    IS_RECT(changes[1], 2, 12, 3, 13);
    IS_RECT(changes[2], 0, 10, 29, 29);
}

static void read_changes(void)
{
    static struct lw_glyphs glyphs;
    struct lw_sizes sizes = {64, 32, 2, 18};
    IS(lw_desk_open(&desk, &sizes, &glyphs), LW_OK);
    read_sixteen();
    read_many();
    read_moves();
    read_frames();
    IS(lw_desk_close(&desk), LW_OK);
    IS(lw_desk_open(&desk, &sizes, &glyphs), LW_OK);
    CHANGES(0);
    IS(lw_desk_close(&desk), LW_OK);
}

/* Each answer has words of its own. */
static void tell(void)
{
    for (int32_t answer = LW_BAD_HOOK; answer <= LW_TOO_MANY_RECTANGLES; answer++) {
        IS(strcmp(lw_reply_text(answer), "unknown") != 0, 1);
        for (int32_t other = LW_BAD_HOOK; other < answer; other++)
            IS(strcmp(lw_reply_text(other), lw_reply_text(answer)) != 0, 1);
    }
    IS(strcmp(lw_reply_text(LW_TOO_MANY_RECTANGLES + 1), "unknown"), 0);
}

int main(void)
{
    tell();
    open_it();
    arrange();
    create();
    draw();
    clip();
    windows();
    IS(lw_delete_layer(&desk, 0), LW_OK);
    IS(lw_create_upfront_layer(&desk, 0, 0, 0, 31, 15, LW_SMART), LW_OK);
    IS(lw_desk_close(&desk), LW_OK);
    IS(lw_upfront_layer(&desk, 0), LW_CLOSED);
    open_it();
    IS(lw_desk_close(&desk), LW_OK);
    closed();
    open_with();
    read_layers();
    read_pens();
    read_messages();
    IS(lw_desk_close(&desk), LW_OK);
    read_changes();
    return 0;
}
