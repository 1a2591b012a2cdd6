/* Regions and rows of bits, as sets of pixels and as bit planes have them: arrays in and out. And desks: layers and windows, and
 * what is drawn on them, behind a handle.
 *
 * What each call makes is proved, for every caller that keeps to this, which nothing checks:
 * - Each pointer isn't null, also where its number of elements is 0, is good for that number, and is aligned for its type.
 * - What a call writes (an array, a count, bounds, a reply, a handle) shares no byte with any other argument of that call. Where
 *   it isn't read too, it needs no value before.
 * - A bool is 0 or 1, also in a field that the call doesn't read.
 * - Memory comes from one malloc, realloc and free, which the program has.
 * - A call runs to its end: no longjmp out of malloc or a signal handler, and no thread that is cancelled in a call.
 * - A handle (struct lw_desk) is LW_NO_DESK before its first call. From then on only calls of this library change it, nothing
 *   else reads, writes or frees what it points to, it isn't copied and then used twice, and one call at a time has it.
 * - No `#pragma pack` holds where this file is included, and the processor has x86-64-v2.
 * All else the calls test themselves, and answer with a number where it doesn't fit. Nothing proves that this header declares the
 * calls as they are, what its own functions do, or what the C compiler makes. That lw_desk_close gives all memory back is tested
 * (valgrind) and not proved.
 *
 * Link with liblayers.a alone; beside malloc, realloc and free it needs memset, memmove and memcpy. No call keeps anything but
 * in a handle, so threads may make calls on arrays and handles of their own at once. */
#ifndef LAYERS_H
#define LAYERS_H

#include <stdbool.h>
#include <stddef.h>
#include <stdint.h>
#include <string.h>

#ifdef __cplusplus
extern "C" {
#endif

/* What calls answer. After any of the errors all is as it was, but for the count at LW_NO_ROOM. A number has the same meaning in
 * each call that answers it. */
enum lw_answer {
    LW_DONE = 0,
    LW_NO_MEMORY = -1,
    LW_BAD_RECTANGLE = -2, /* a maximum is below its minimum */
    LW_NO_ROOM = -3,       /* the array for the result is too short; where the call has a count, that says how long it has to
                              be */
    LW_EMPTY = -4,         /* an array of no rectangles has no bounds */
    LW_OUTSIDE = -5,       /* bits that are asked for end past their row, or rows past their array, though none is asked for;
                              a rectangle doesn't lie on the screen */
    LW_CLOSED = -6,        /* the handle has no desk */
    LW_UNFIT = -7,         /* the numbers are no call, or none of a desk of this size: see struct lw_call; or a reader is
                              asked of a slot that the desk doesn't have */
    LW_BAD_SIZES = -8,     /* no desk has these sizes */
    LW_IS_OPEN = -9,       /* the handle has a desk already */
    LW_NO_LAYER = -10,     /* a reader is asked of a slot that has no layer: a call replies LW_NOT_OPEN to that */
    LW_NO_WINDOW = -11,    /* or of the messages of a layer that is no window: a call replies LW_NOT_WINDOW to that */
    LW_BAD_BITMAP = -12,   /* the numbers of a bitmap describe none: they are out of range, or its bytes end past their array */
    LW_BAD_HOOK = -13      /* the numbers of a hook describe none: it has no tile, or its tiles end past their array */
};

/* ---- Regions. A rectangle has the columns min_x to max_x and the rows min_y to max_y, all inclusive. A region is an array of
 * rectangles, and its pixels are those of any of them. An operand may have its rectangles in any order, and they may overlap. A
 * result is the canonical list of its pixels: bands from top to bottom, the runs of a band from left to right; no two runs of a
 * band touch or overlap, and no two adjacent bands have equal runs. So two regions have the same pixels exactly where their
 * canonical lists are equal. A union with no rectangle makes any region canonical. ---- */
struct lw_rectangle {
    int16_t min_x, min_y, max_x, max_y;
};

/* Each writes the canonical list of the pixels of a and b (OrRegionRegion), of those in both (AndRegionRegion), of those in one
 * alone (XorRegionRegion), or of those of a that b has not; `count` tells how many rectangles it has. What lies behind them in
 * `out` stays. LW_BAD_RECTANGLE comes before LW_NO_ROOM. */
int32_t lw_region_union(const struct lw_rectangle *a, size_t a_count, const struct lw_rectangle *b, size_t b_count,
                        struct lw_rectangle *out, size_t out_count, size_t *count);
int32_t lw_region_intersection(const struct lw_rectangle *a, size_t a_count, const struct lw_rectangle *b, size_t b_count,
                               struct lw_rectangle *out, size_t out_count, size_t *count);
int32_t lw_region_symmetric_difference(const struct lw_rectangle *a, size_t a_count, const struct lw_rectangle *b,
                                       size_t b_count, struct lw_rectangle *out, size_t out_count, size_t *count);
int32_t lw_region_difference(const struct lw_rectangle *a, size_t a_count, const struct lw_rectangle *b, size_t b_count,
                             struct lw_rectangle *out, size_t out_count, size_t *count);

/* 1 where some rectangle has the pixel, 0 where none has it, or LW_BAD_RECTANGLE. */
int32_t lw_region_has(const struct lw_rectangle *list, size_t count, int32_t x, int32_t y);

/* The least rectangle in which all of them lie, or LW_BAD_RECTANGLE, or LW_EMPTY where there is none. */
int32_t lw_region_bounds(const struct lw_rectangle *list, size_t count, struct lw_rectangle *bounds);

/* ---- Rows of a bit plane. Bit 0 is the most significant bit of the first byte, the leftmost pixel. Each named bit gets its
 * value, and every other bit stays. A minterm's bit 0x80 is the result where the source's bit and the old bit are 1, 0x40 where
 * the source's alone is, 0x20 where the old one alone is, and 0x10 where neither is; its other bits aren't read here. ---- */
#define LW_COPY_MINTERM 0xc0

int32_t lw_row_fill(uint8_t *row, size_t bytes, uint32_t from, uint32_t count, bool bit);
int32_t lw_row_invert(uint8_t *row, size_t bytes, uint32_t from, uint32_t count);
int32_t lw_row_blit(uint8_t *to, size_t to_bytes, uint32_t to_bit, const uint8_t *source, size_t source_bytes,
                    uint32_t source_bit, uint32_t count, uint8_t minterm);
/* Within one row; the sources are the bits before the call. */
int32_t lw_row_blit_within(uint8_t *row, size_t bytes, uint32_t to_bit, uint32_t source_bit, uint32_t count, uint8_t minterm);

/* ---- The same of a block: the same bits of several rows of `step` bytes each, one after another. A place is the row and the bit
 * at which a part of it begins. ---- */
struct lw_place {
    uint32_t row, bit;
};

int32_t lw_block_fill(uint8_t *block, size_t bytes, uint32_t step, uint32_t rows, uint32_t from, uint32_t count, bool bit);
int32_t lw_block_invert(uint8_t *block, size_t bytes, uint32_t step, uint32_t rows, uint32_t from, uint32_t count);
int32_t lw_block_blit(uint8_t *to, size_t to_bytes, uint32_t to_step, uint32_t to_bit, const uint8_t *source,
                      size_t source_bytes, uint32_t source_step, uint32_t source_bit, uint32_t rows, uint32_t count,
                      uint8_t minterm);
int32_t lw_block_blit_within(uint8_t *block, size_t bytes, uint32_t step, const struct lw_place *to,
                             const struct lw_place *source, uint32_t rows, uint32_t count, uint8_t minterm);

/* ---- Desks: a screen, its layers from the front to the back, and what is drawn on them. A layer is named by a slot, from 0 to
 * `slots` - 1, that the program chooses when it creates the layer; a slot whose layer was deleted may be used again. A register,
 * 0 to 7, holds a region. docs/DEFINITIONS.md says what each call does, on a desk of version 3. ---- */
struct lw_desk {
    void *at;
    bool is_open;
};

#define LW_NO_DESK {NULL, false}

struct lw_sizes {
    uint32_t width, height; /* of the screen, 1 to 2048 */
    uint32_t depth;         /* bit planes, 1 to 8 */
    uint32_t slots;         /* how many, up to 1024 */
};

/* The glyphs of the codes 0x20 to 0x7e, 8 bytes each from the top row; the most significant bit is the leftmost pixel. Any other
 * code draws an empty cell. */
struct lw_glyphs {
    uint8_t rows[95][8];
};

/* The kinds of layers and a layer to be created. */
enum lw_layer_kind { LW_SIMPLE = 0, LW_SMART = 1, LW_SUPER_BITMAP = 2 };

struct lw_make {
    uint32_t kind;
    int32_t x, y, w, h;      /* the screen's column and row of the top left corner, and the size, 1 to 65536 */
    uint32_t hook;           /* read where has_hook */
    uint32_t bits_w, bits_h; /* of a super-bitmap layer's bitmap, 1 to 2048; 0 of another layer */
    bool has_hook, is_behind, is_backdrop;
};

/* The calls. */
enum lw_call_kind {
    LW_JOIN_RECT, LW_JOIN_REGION, LW_CLEAR_REGION, LW_OPEN_WINDOW, LW_TEXT, LW_SET_TITLE, LW_CREATE, LW_CLOSE, LW_TO_FRONT,
    LW_TO_BACK, LW_IN_FRONT_OF, LW_MOVE_BY, LW_SIZE_BY, LW_SET_BOX, LW_ACTIVATE, LW_SET_HOOK, LW_WHICH, LW_SET_A, LW_SET_B,
    LW_SET_MODE, LW_SET_MASK, LW_CLIP, LW_UNCLIP, LW_BEGIN, LW_END, LW_SCROLL, LW_TAKE_MESSAGE, LW_AT, LW_DRAW_TO,
    LW_WRITE_PIXEL, LW_READ_PIXEL, LW_FILL, LW_SET_RAST, LW_SCROLL_RASTER, LW_PUT, LW_BLIT
};

#define LW_NO_CALL UINT32_MAX /* a kind that no call has */

enum lw_join { LW_OR = 0, LW_AND = 1, LW_XOR = 2, LW_CLEAR = 3 };

/* A call; the verbs below fill it in. Each kind but LW_WHICH reads `slot`, the first three for a register. Besides:
 * - LW_JOIN_RECT operation, rect; LW_JOIN_REGION operation, other (the register that is joined to it);
 * - LW_OPEN_WINDOW make, flag (framed), is_nocare, number (messages), the text; LW_TEXT, LW_SET_TITLE the text;
 * - LW_CREATE make; LW_IN_FRONT_OF other (a slot); LW_SET_HOOK other (a hook); LW_CLIP other (a register);
 * - LW_MOVE_BY, LW_SCROLL, LW_WHICH, LW_AT, LW_DRAW_TO, LW_WRITE_PIXEL, LW_READ_PIXEL x, y;
 * - LW_SIZE_BY w, h; LW_SET_BOX x, y, w, h;
 * - LW_SET_A, LW_SET_B, LW_SET_MODE, LW_SET_MASK, LW_SET_RAST number; LW_END flag (all was painted again);
 * - LW_FILL rect; LW_SCROLL_RASTER x, y, rect;
 * - LW_PUT, LW_BLIT other (the source: a bitmap, a slot), source_x, source_y, x, y, w, h, number (the minterm).
 *
 * It is unfit where the kind, the operation or the kind of layer is none of its enum; LW_CLEAR joins two registers; the desk has
 * no such slot, or a register is above 7; a coordinate or a step isn't from -32768 to 32767; a maximum is below its minimum; a
 * size of a box or a blit isn't from 1 to 32767, or one of a struct lw_make isn't as told there; a super-bitmap layer shall have
 * a frame or, at its creation, a hook; a mode is above 7, or messages above 31; a blit's minterm has one of its low four bits;
 * or it names a hook or a bitmap that the desk wasn't opened with: their numbers are their places in the arrays of
 * lw_desk_open_with. */
struct lw_call {
    uint32_t kind, slot, other, operation;
    int32_t x, y, w, h, source_x, source_y;
    struct lw_rectangle rect;
    struct lw_make make;
    uint8_t number;
    bool flag, is_nocare;
};

/* What a call is answered. From LW_NOT_OPEN on it is refused, and the desk is as it was. LW_NOT_WRITABLE is also of a pixel that
 * the layer doesn't keep, so that it can't be read. */
enum lw_reply_kind {
    LW_OK, LW_PEN, LW_NOT_WRITABLE, LW_NOTHING, LW_LAYER, LW_RECTANGLES, LW_MESSAGE, LW_NOT_OPEN, LW_ALREADY_OPEN, LW_NOT_WINDOW,
    LW_NOT_OWNER, LW_BACKDROP, LW_NOT_SUPER, LW_IN_UPDATE, LW_NOT_IN_UPDATE, LW_OUT_OF_BOUNDS, LW_TOO_MANY_RECTANGLES
};

enum lw_message { LW_REFRESH, LW_NEW_SIZE, LW_CHANGE, LW_ACTIVE, LW_INACTIVE };

struct lw_reply {
    uint64_t kind;
    uint64_t number; /* the pen, the slot, how many rectangles, or the message; else 0 */
};

/* LW_IS_OPEN, LW_BAD_SIZES, LW_NO_MEMORY, or the handle has a new desk with no layer, no hook and no bitmap. */
int32_t lw_desk_open(struct lw_desk *desk, const struct lw_sizes *sizes, const struct lw_glyphs *glyphs);

/* A bitmap that a desk is opened with: its first byte is bits[first]. It has plane after plane, in each row after row, and each
 * row has `(width + 15) / 16 * 2` bytes, in which the most significant bit of the first is the leftmost pixel. What the padding
 * of a row holds makes no difference. A blit drops planes beyond the screen's, and reads 0 of those that the bitmap lacks. */
struct lw_bitmap {
    uint32_t width, height; /* 1 to 2048 */
    uint32_t depth;         /* bit planes, 1 to 8 */
    uint32_t first;
};

/* A backfill hook: so many tiles of 64 pens each, from tile `first` on, whose first pen is tiles[64 * first]. A tile is 8 rows of
 * 8 pens, and is repeated over all of the layer from its top left pixel on; a pen counts modulo 2^depth of the screen. Each call
 * that makes the hook fill pixels turns it to its next tile, and after the last one to the first.
 * A layer takes a hook for itself, so each serves once: where it was taken before, the call is LW_OK, and the layer has none.
 * LW_SET_HOOK drops the layer's former hook for good, also where it then has none. A super-bitmap layer is never filled. */
struct lw_hook {
    uint32_t first, count;
};

/* The same with bitmaps, 16 at most, and hooks, both of which are copied. LW_BAD_SIZES is also of more; LW_BAD_BITMAP comes after
 * it, and LW_BAD_HOOK after that. No array is null, also where it has no element. */
int32_t lw_desk_open_with(struct lw_desk *desk, const struct lw_sizes *sizes, const struct lw_glyphs *glyphs,
                          const struct lw_bitmap *bitmaps, size_t bitmap_count, const uint8_t *bits, size_t bits_count,
                          const struct lw_hook *hooks, size_t hook_count, const uint8_t *tiles, size_t tiles_count);
/* LW_CLOSED, or the handle has no desk from then on, and may be opened again. */
int32_t lw_desk_close(struct lw_desk *desk);

/* Makes a call, with a text where it has one. After LW_CLOSED, LW_UNFIT and LW_NO_MEMORY all is as it was. A reply's rectangles
 * are written to `rects` where there is room for all of them: 128 are always enough. Memory never runs out but of LW_JOIN_RECT,
 * LW_JOIN_REGION, LW_CLIP, LW_SCROLL_RASTER, the three with a text, and LW_CREATE to LW_ACTIVATE. */
int32_t lw_desk_call(struct lw_desk *desk, const struct lw_call *call, const uint8_t *text, size_t text_count,
                     struct lw_reply *reply, struct lw_rectangle *rects, size_t rects_count);

/* ---- Readers. Each leaves the desk as it is, but for lw_desk_changed, and tells how it is after the calls that were done.
 * Without a desk all answer LW_CLOSED; those of a slot answer LW_UNFIT where the desk has no such slot, and LW_NO_LAYER where the
 * slot has no layer. Those that write a list to `out` set `count` to its length, and answer LW_NO_ROOM where that is above
 * `out_count`; what lies behind the list in `out` stays. Only lw_desk_pens and lw_desk_planes take memory, and answer
 * LW_NO_MEMORY. ---- */

/* The slots of the layers, from the front to the back. */
int32_t lw_desk_layers(struct lw_desk *desk, uint32_t *out, size_t out_count, size_t *count);

/* A layer's bounds in screen coordinates; they may lie off the screen. */
int32_t lw_desk_bounds(struct lw_desk *desk, uint32_t slot, struct lw_rectangle *out);

/* The places of the screen at which a layer is shown, as a canonical list; none of a layer that is covered. */
int32_t lw_desk_visible(struct lw_desk *desk, uint32_t slot, struct lw_rectangle *out, size_t out_count, size_t *count);

/* A layer's damage in the layer's own coordinates, as a canonical list. */
int32_t lw_desk_damage(struct lw_desk *desk, uint32_t slot, struct lw_rectangle *out, size_t out_count, size_t *count);

/* The messages of lw_message that wait for a window, from the oldest, a byte each; lw_get_message takes them. LW_NO_WINDOW where
 * the slot has a layer that is no window. */
int32_t lw_desk_messages(struct lw_desk *desk, uint32_t slot, uint8_t *out, size_t out_count, size_t *count);

/* Where the screen changed: each of its pixels that lies in none of these rectangles shows the pen that it showed when this last
 * answered LW_DONE, or when the desk was opened, with pen 0 everywhere. They lie on the screen, may overlap, are 16 at most, and
 * may have pixels that didn't change. So a program that reads the list into room for 16, which is always enough, and copies each
 * rectangle, as lw_desk_pens reads it, to a picture that was the screen's, has the screen's again. LW_DONE empties the list,
 * LW_NO_ROOM keeps it. */
int32_t lw_desk_changed(struct lw_desk *desk, struct lw_rectangle *out, size_t out_count, size_t *count);

/* The pens of a rectangle of the screen, row by row, a byte each: those of the layers that are shown there, and 0 where none is.
 * In this order it answers LW_BAD_RECTANGLE; LW_OUTSIDE where the rectangle doesn't lie on the screen; LW_NO_ROOM where it has
 * more pixels than `out_count`; LW_NO_MEMORY. What lies behind the pens in `out` stays. Only the rectangle is composed. */
int32_t lw_desk_pens(struct lw_desk *desk, const struct lw_rectangle *part, uint8_t *out, size_t out_count);

/* The planes of a rectangle of the screen, as a struct lw_bitmap of its size and of the screen's depth has them; `count` tells
 * how many bytes these are, also at LW_NO_ROOM, before anything is composed. It answers in the order of lw_desk_pens. What a
 * row's padding holds isn't told. */
int32_t lw_desk_planes(struct lw_desk *desk, const struct lw_rectangle *part, uint8_t *out, size_t out_count, size_t *count);

/* ---- The verbs: they only fill a struct in. Each answers an error of lw_answer, below 0, or a reply of lw_reply_kind. What a
 * reply says besides is written to the verb's last argument, 0 where it says nothing; after an error that stays. It isn't null,
 * and no text is; a text ends with a 0 byte. A number that its field can't hold is LW_UNFIT.
 *
 * The names are the manual's, and so are the arguments and their order, but for these: a slot or a register stands for a layer,
 * a window, a raster port or a region; lw_create_layer and lw_open_window take a struct lw_make; the other verbs that create a
 * layer have a name for each flag; lw_join_rect_region and lw_join_region_region stand for OrRectRegion, AndRegionRegion and
 * their like; lw_text has no count, and lw_set_window_title only the window's title. ---- */
static inline struct lw_call lw_new_call(uint32_t kind, uint32_t slot)
{
    struct lw_call call;
    memset(&call, 0, sizeof call);
    call.kind = kind;
    call.slot = slot;
    return call;
}

/* These three have a number that doesn't fit its field refused. */
static inline void lw_set_number(struct lw_call *call, uint32_t number)
{
    if (number > UINT8_MAX)
        call->kind = LW_NO_CALL;
    call->number = (uint8_t)number;
}

static inline void lw_set_rect(struct lw_call *call, int32_t x0, int32_t y0, int32_t x1, int32_t y1)
{
    struct lw_rectangle rect = {(int16_t)x0, (int16_t)y0, (int16_t)x1, (int16_t)y1};
    if (rect.min_x != x0 || rect.min_y != y0 || rect.max_x != x1 || rect.max_y != y1)
        call->kind = LW_NO_CALL;
    call->rect = rect;
}

static inline int32_t lw_size_of(int32_t first, int32_t last)
{
    int64_t size = (int64_t)last - first + 1;
    return size < 1 || size > 65536 ? 0 : (int32_t)size;
}

static inline int32_t lw_say_rects(struct lw_desk *desk, const struct lw_call *call, const char *text,
                                   struct lw_rectangle *rects, size_t room, uint64_t *number)
{
    struct lw_reply reply = {0, 0};
    int32_t answer = lw_desk_call(desk, call, (const uint8_t *)text, strlen(text), &reply, rects, room);
    if (answer < 0)
        return answer;
    *number = reply.number;
    return (int32_t)reply.kind;
}

static inline int32_t lw_say(struct lw_desk *desk, const struct lw_call *call, const char *text, uint64_t *number)
{
    struct lw_rectangle none;
    return lw_say_rects(desk, call, text, &none, 0, number);
}

static inline int32_t lw_do(struct lw_desk *desk, const struct lw_call *call)
{
    uint64_t number;
    return lw_say(desk, call, "", &number);
}

static inline struct lw_make lw_new_make(int32_t x0, int32_t y0, int32_t x1, int32_t y1, uint32_t kind)
{
    struct lw_make make;
    memset(&make, 0, sizeof make);
    make.kind = kind;
    make.x = x0;
    make.y = y0;
    make.w = lw_size_of(x0, x1);
    make.h = lw_size_of(y0, y1);
    return make;
}

static inline int32_t lw_create_layer(struct lw_desk *desk, uint32_t slot, const struct lw_make *make)
{
    struct lw_call call = lw_new_call(LW_CREATE, slot);
    call.make = *make;
    return lw_do(desk, &call);
}

/* A layer of these bounds, all inclusive: in front of the others, behind all but the backdrop layers, or behind all as a backdrop
 * layer; or in front with a bitmap of its own, of this size, of which lw_scroll_layer shows another portion. */
static inline int32_t lw_create_upfront_layer(struct lw_desk *desk, uint32_t slot, int32_t x0, int32_t y0, int32_t x1, int32_t y1,
                                              uint32_t kind)
{
    struct lw_make make = lw_new_make(x0, y0, x1, y1, kind);
    return lw_create_layer(desk, slot, &make);
}

static inline int32_t lw_create_behind_layer(struct lw_desk *desk, uint32_t slot, int32_t x0, int32_t y0, int32_t x1, int32_t y1,
                                             uint32_t kind)
{
    struct lw_make make = lw_new_make(x0, y0, x1, y1, kind);
    make.is_behind = true;
    return lw_create_layer(desk, slot, &make);
}

static inline int32_t lw_create_backdrop_layer(struct lw_desk *desk, uint32_t slot, int32_t x0, int32_t y0, int32_t x1,
                                               int32_t y1, uint32_t kind)
{
    struct lw_make make = lw_new_make(x0, y0, x1, y1, kind);
    make.is_behind = true;
    make.is_backdrop = true;
    return lw_create_layer(desk, slot, &make);
}

static inline int32_t lw_create_super_bitmap_layer(struct lw_desk *desk, uint32_t slot, int32_t x0, int32_t y0, int32_t x1,
                                                   int32_t y1, uint32_t bits_w, uint32_t bits_h)
{
    struct lw_make make = lw_new_make(x0, y0, x1, y1, LW_SUPER_BITMAP);
    make.bits_w = bits_w;
    make.bits_h = bits_h;
    return lw_create_layer(desk, slot, &make);
}

/* `messages` has bit 0 for LW_REFRESH, bit 1 for LW_NEW_SIZE and so on. */
static inline int32_t lw_open_window(struct lw_desk *desk, uint32_t slot, const struct lw_make *make, bool framed, bool nocare,
                                     uint32_t messages, const char *title)
{
    uint64_t number;
    struct lw_call call = lw_new_call(LW_OPEN_WINDOW, slot);
    call.make = *make;
    call.flag = framed;
    call.is_nocare = nocare;
    lw_set_number(&call, messages);
    return lw_say(desk, &call, title, &number);
}

/* To delete a layer and to close a window are one call, and either verb does both. */
#define LW_VERB(name, call_kind)                                               \
    static inline int32_t name(struct lw_desk *desk, uint32_t slot)            \
    {                                                                          \
        struct lw_call call = lw_new_call(call_kind, slot);                    \
        return lw_do(desk, &call);                                             \
    }
LW_VERB(lw_delete_layer, LW_CLOSE)
LW_VERB(lw_close_window, LW_CLOSE)
LW_VERB(lw_upfront_layer, LW_TO_FRONT)
LW_VERB(lw_behind_layer, LW_TO_BACK)
LW_VERB(lw_activate_window, LW_ACTIVATE)
LW_VERB(lw_begin_update, LW_BEGIN)
LW_VERB(lw_clear_region, LW_CLEAR_REGION)
#undef LW_VERB

#define LW_VERB(name, call_kind, field, type)                                  \
    static inline int32_t name(struct lw_desk *desk, uint32_t slot, type it)   \
    {                                                                          \
        struct lw_call call = lw_new_call(call_kind, slot);                    \
        call.field = it;                                                       \
        return lw_do(desk, &call);                                             \
    }
LW_VERB(lw_move_layer_in_front_of, LW_IN_FRONT_OF, other, uint32_t)
LW_VERB(lw_install_layer_hook, LW_SET_HOOK, other, uint32_t)
LW_VERB(lw_end_update, LW_END, flag, bool)
#undef LW_VERB

#define LW_VERB(name, call_kind)                                                   \
    static inline int32_t name(struct lw_desk *desk, uint32_t slot, uint32_t it)   \
    {                                                                              \
        struct lw_call call = lw_new_call(call_kind, slot);                        \
        lw_set_number(&call, it);                                                  \
        return lw_do(desk, &call);                                                 \
    }
LW_VERB(lw_set_a_pen, LW_SET_A)
LW_VERB(lw_set_b_pen, LW_SET_B)
LW_VERB(lw_set_dr_md, LW_SET_MODE)
LW_VERB(lw_set_write_mask, LW_SET_MASK)
LW_VERB(lw_set_rast, LW_SET_RAST)
#undef LW_VERB

#define LW_VERB(name, call_kind, first, second)                                                \
    static inline int32_t name(struct lw_desk *desk, uint32_t slot, int32_t one, int32_t two)  \
    {                                                                                          \
        struct lw_call call = lw_new_call(call_kind, slot);                                    \
        call.first = one;                                                                      \
        call.second = two;                                                                     \
        return lw_do(desk, &call);                                                             \
    }
LW_VERB(lw_move_layer, LW_MOVE_BY, x, y)
LW_VERB(lw_size_layer, LW_SIZE_BY, w, h)
LW_VERB(lw_scroll_layer, LW_SCROLL, x, y)
LW_VERB(lw_move, LW_AT, x, y)
LW_VERB(lw_draw, LW_DRAW_TO, x, y)
LW_VERB(lw_write_pixel, LW_WRITE_PIXEL, x, y)
#undef LW_VERB

static inline int32_t lw_change_window_box(struct lw_desk *desk, uint32_t slot, int32_t left, int32_t top, int32_t width,
                                           int32_t height)
{
    struct lw_call call = lw_new_call(LW_SET_BOX, slot);
    call.x = left;
    call.y = top;
    call.w = width;
    call.h = height;
    return lw_do(desk, &call);
}

static inline int32_t lw_rect_fill(struct lw_desk *desk, uint32_t slot, int32_t x0, int32_t y0, int32_t x1, int32_t y1)
{
    struct lw_call call = lw_new_call(LW_FILL, slot);
    lw_set_rect(&call, x0, y0, x1, y1);
    return lw_do(desk, &call);
}

static inline int32_t lw_scroll_raster(struct lw_desk *desk, uint32_t slot, int32_t dx, int32_t dy, int32_t x0, int32_t y0,
                                       int32_t x1, int32_t y1)
{
    struct lw_call call = lw_new_call(LW_SCROLL_RASTER, slot);
    call.x = dx;
    call.y = dy;
    lw_set_rect(&call, x0, y0, x1, y1);
    return lw_do(desk, &call);
}

/* LW_COPY_MINTERM copies the pixels. */
static inline int32_t lw_clip_blit(struct lw_desk *desk, uint32_t source, int32_t source_x, int32_t source_y, uint32_t slot,
                                   int32_t x, int32_t y, int32_t w, int32_t h, uint32_t minterm)
{
    struct lw_call call = lw_new_call(LW_BLIT, slot);
    call.other = source;
    call.source_x = source_x;
    call.source_y = source_y;
    call.x = x;
    call.y = y;
    call.w = w;
    call.h = h;
    lw_set_number(&call, minterm);
    return lw_do(desk, &call);
}

/* The same of a bitmap that the desk was opened with. */
static inline int32_t lw_blt_bit_map_rast_port(struct lw_desk *desk, uint32_t bitmap, int32_t source_x, int32_t source_y,
                                               uint32_t slot, int32_t x, int32_t y, int32_t w, int32_t h, uint32_t minterm)
{
    struct lw_call call = lw_new_call(LW_PUT, slot);
    call.other = bitmap;
    call.source_x = source_x;
    call.source_y = source_y;
    call.x = x;
    call.y = y;
    call.w = w;
    call.h = h;
    lw_set_number(&call, minterm);
    return lw_do(desk, &call);
}

static inline int32_t lw_text(struct lw_desk *desk, uint32_t slot, const char *text)
{
    uint64_t number;
    struct lw_call call = lw_new_call(LW_TEXT, slot);
    return lw_say(desk, &call, text, &number);
}

static inline int32_t lw_set_window_title(struct lw_desk *desk, uint32_t slot, const char *title)
{
    uint64_t number;
    struct lw_call call = lw_new_call(LW_SET_TITLE, slot);
    return lw_say(desk, &call, title, &number);
}

/* LW_PEN with the pixel's pen in `pen`; LW_LAYER with the slot in `slot`; LW_MESSAGE with one of lw_message in `message`. */
static inline int32_t lw_read_pixel(struct lw_desk *desk, uint32_t slot, int32_t x, int32_t y, uint64_t *pen)
{
    struct lw_call call = lw_new_call(LW_READ_PIXEL, slot);
    call.x = x;
    call.y = y;
    return lw_say(desk, &call, "", pen);
}

static inline int32_t lw_which_layer(struct lw_desk *desk, int32_t x, int32_t y, uint64_t *slot)
{
    struct lw_call call = lw_new_call(LW_WHICH, 0);
    call.x = x;
    call.y = y;
    return lw_say(desk, &call, "", slot);
}

static inline int32_t lw_get_message(struct lw_desk *desk, uint32_t slot, uint64_t *message)
{
    struct lw_call call = lw_new_call(LW_TAKE_MESSAGE, slot);
    return lw_say(desk, &call, "", message);
}

/* Joins a rectangle to a register by LW_OR, LW_AND, LW_XOR or LW_CLEAR, or one register to another by one of the first three. */
static inline int32_t lw_join_rect_region(struct lw_desk *desk, uint32_t join, uint32_t region, struct lw_rectangle rect)
{
    struct lw_call call = lw_new_call(LW_JOIN_RECT, region);
    call.operation = join;
    call.rect = rect;
    return lw_do(desk, &call);
}

static inline int32_t lw_join_region_region(struct lw_desk *desk, uint32_t join, uint32_t source, uint32_t into)
{
    struct lw_call call = lw_new_call(LW_JOIN_REGION, into);
    call.operation = join;
    call.other = source;
    return lw_do(desk, &call);
}

/* Installs a copy of a register, or removes the clip region. LW_RECTANGLES where there was one before: `count` says how many
 * rectangles that has, and they are in `old` only where `room` isn't below `count`. */
static inline int32_t lw_install_clip_region(struct lw_desk *desk, uint32_t slot, uint32_t region, struct lw_rectangle *old,
                                             size_t room, uint64_t *count)
{
    struct lw_call call = lw_new_call(LW_CLIP, slot);
    call.other = region;
    return lw_say_rects(desk, &call, "", old, room, count);
}

static inline int32_t lw_remove_clip_region(struct lw_desk *desk, uint32_t slot, struct lw_rectangle *old, size_t room,
                                            uint64_t *count)
{
    struct lw_call call = lw_new_call(LW_UNCLIP, slot);
    return lw_say_rects(desk, &call, "", old, room, count);
}

/* What an answer of the calls on regions, rows and blocks means, or an error of any call, for people. */
static inline const char *lw_text_of(int32_t answer)
{
    switch (answer) {
    case LW_DONE:
        return "done";
    case LW_NO_MEMORY:
        return "memory ran out";
    case LW_BAD_RECTANGLE:
        return "a rectangle's maximum is below its minimum";
    case LW_NO_ROOM:
        return "the array for the result is too short";
    case LW_EMPTY:
        return "there is no rectangle";
    case LW_OUTSIDE:
        return "bits, rows or a rectangle lie outside";
    case LW_CLOSED:
        return "the handle has no desk";
    case LW_UNFIT:
        return "the call doesn't fit the desk";
    case LW_BAD_SIZES:
        return "no desk has these sizes";
    case LW_IS_OPEN:
        return "the handle has a desk already";
    case LW_NO_LAYER:
        return "there is no layer in the slot";
    case LW_NO_WINDOW:
        return "the slot's layer is no window";
    case LW_BAD_BITMAP:
        return "a bitmap's sizes or bytes don't fit";
    case LW_BAD_HOOK:
        return "a hook's tiles don't fit";
    default:
        return answer == 1 ? "the rectangles have the pixel" : "unknown";
    }
}

/* The same of a verb's answer: a reply or an error. */
static inline const char *lw_reply_text(int32_t answer)
{
    switch (answer) {
    case LW_PEN:
        return "the pixel's pen";
    case LW_NOT_WRITABLE:
        return "the pixel can't be written or read";
    case LW_NOTHING:
        return "there is nothing";
    case LW_LAYER:
        return "a layer's slot";
    case LW_RECTANGLES:
        return "a region's rectangles";
    case LW_MESSAGE:
        return "a message";
    case LW_NOT_OPEN:
        return "the slot has no layer";
    case LW_ALREADY_OPEN:
        return "the slot has a layer already";
    case LW_NOT_WINDOW:
        return "the layer is no window";
    case LW_NOT_OWNER:
        return "the window is another task's";
    case LW_BACKDROP:
        return "the layer is a backdrop layer";
    case LW_NOT_SUPER:
        return "the layer has no bitmap of its own";
    case LW_IN_UPDATE:
        return "the layer is in an update";
    case LW_NOT_IN_UPDATE:
        return "the layer is in no update";
    case LW_OUT_OF_BOUNDS:
        return "the layer, its portion or the cursor would be out of bounds";
    case LW_TOO_MANY_RECTANGLES:
        return "the region would have more than 128 rectangles";
    default:
        return answer <= LW_OK ? lw_text_of(answer) : "unknown";
    }
}

#ifdef __cplusplus
}
#endif

#endif
