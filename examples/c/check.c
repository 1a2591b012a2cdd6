/* Every call on arrays, of random ones, beside the same thing done pixel by pixel and bit by bit, and every error but want of
 * memory. */
#include <layers.h>
#include <stdio.h>
#include <stdlib.h>
#include <string.h>

enum { SIDE = 40, MOST = 24, ROOM = 2000, BYTES = 64 };

static uint32_t state = 1;

static uint32_t below(uint32_t limit)
{
    state = state * 1664525u + 1013904223u;
    return (state >> 8) % limit;
}

static void expect(bool holds, const char *what)
{
    if (!holds) {
        fprintf(stderr, "check: %s\n", what);
        exit(1);
    }
}

/* ---- Regions ---- */

static size_t random_list(struct lw_rectangle *list)
{
    size_t count = below(MOST + 1);
    for (size_t i = 0; i < count; i++) {
        int16_t x = (int16_t)below(SIDE), y = (int16_t)below(SIDE);
        struct lw_rectangle r = {x, y, (int16_t)(x + (int16_t)below((uint32_t)(SIDE - x))),
                                 (int16_t)(y + (int16_t)below((uint32_t)(SIDE - y)))};
        list[i] = r;
    }
    return count;
}

static void paint(const struct lw_rectangle *list, size_t count, uint8_t *pixels)
{
    memset(pixels, 0, SIDE * SIDE);
    for (size_t i = 0; i < count; i++)
        for (int y = list[i].min_y; y <= list[i].max_y; y++)
            for (int x = list[i].min_x; x <= list[i].max_x; x++)
                pixels[y * SIDE + x] = 1;
}

typedef int32_t (*operation)(const struct lw_rectangle *, size_t, const struct lw_rectangle *, size_t, struct lw_rectangle *,
                             size_t, size_t *);

static uint8_t wanted(int which, uint8_t a, uint8_t b)
{
    switch (which) {
    case 0:
        return a | b;
    case 1:
        return a & b;
    case 2:
        return a ^ b;
    default:
        return (uint8_t)(a & !b);
    }
}

/* Bands from top to bottom, their runs from left to right with a gap, no two adjacent bands with equal runs; by pixels alone:
 * each row's runs are made again, and equal rows are joined. */
static size_t canonical(const uint8_t *pixels, struct lw_rectangle *out)
{
    size_t count = 0, above = 0;
    for (int y = 0; y < SIDE; y++) {
        size_t first = count;
        for (int x = 0; x < SIDE; x++) {
            if (!pixels[y * SIDE + x])
                continue;
            int end = x;
            while (end + 1 < SIDE && pixels[y * SIDE + end + 1])
                end++;
            struct lw_rectangle r = {(int16_t)x, (int16_t)y, (int16_t)end, (int16_t)y};
            out[count++] = r;
            x = end;
        }
        size_t runs = count - first;
        bool same = runs > 0 && first - above == runs && out[above].max_y == y - 1;
        for (size_t i = 0; same && i < runs; i++)
            same = out[above + i].min_x == out[first + i].min_x && out[above + i].max_x == out[first + i].max_x;
        if (same) {
            for (size_t i = above; i < first; i++)
                out[i].max_y = (int16_t)y;
            count = first;
        } else {
            above = first;
        }
    }
    return count;
}

static bool equal(const struct lw_rectangle *a, const struct lw_rectangle *b, size_t count)
{
    return count == 0 || memcmp(a, b, count * sizeof *a) == 0;
}

static void check_regions(void)
{
    static const operation calls[4] = {lw_region_union, lw_region_intersection, lw_region_symmetric_difference,
                                       lw_region_difference};
    static struct lw_rectangle a[MOST], b[MOST], out[ROOM], right[ROOM], before[ROOM];
    static uint8_t pa[SIDE * SIDE], pb[SIDE * SIDE], p[SIDE * SIDE];
    for (int turn = 0; turn < 4000; turn++) {
        size_t na = random_list(a), nb = random_list(b), count = 12345;
        int which = turn % 4;
        paint(a, na, pa);
        paint(b, nb, pb);
        for (int i = 0; i < SIDE * SIDE; i++)
            p[i] = wanted(which, pa[i], pb[i]);
        size_t length = canonical(p, right);
        memset(out, 0x5a, sizeof out);
        memcpy(before, out, sizeof out);
        expect(calls[which](a, na, b, nb, out, ROOM, &count) == LW_DONE, "an operation is done");
        expect(count == length && equal(out, right, length), "an operation's list");
        expect(equal(out + length, before + length, ROOM - length), "the rest of the array stays");
        if (length > 0) {
            count = 12345;
            memcpy(out, before, sizeof out);
            expect(calls[which](a, na, b, nb, out, length - 1, &count) == LW_NO_ROOM, "too short an array");
            expect(count == length && equal(out, before, ROOM), "the count is told and the array stays");
        }
        int x = (int)below(SIDE), y = (int)below(SIDE);
        expect(lw_region_has(a, na, x, y) == pa[y * SIDE + x], "whether a pixel is there");
        struct lw_rectangle all = {0, 0, 0, 0}, bad = {5, 5, 4, 5};
        if (na == 0) {
            expect(lw_region_bounds(a, na, &all) == LW_EMPTY, "no bounds");
        } else {
            struct lw_rectangle least = a[0];
            for (size_t i = 1; i < na; i++) {
                least.min_x = a[i].min_x < least.min_x ? a[i].min_x : least.min_x;
                least.min_y = a[i].min_y < least.min_y ? a[i].min_y : least.min_y;
                least.max_x = a[i].max_x > least.max_x ? a[i].max_x : least.max_x;
                least.max_y = a[i].max_y > least.max_y ? a[i].max_y : least.max_y;
            }
            expect(lw_region_bounds(a, na, &all) == LW_DONE && equal(&all, &least, 1), "the bounds");
            a[below((uint32_t)na)] = bad;
            count = 12345;
            memcpy(out, before, sizeof out);
            expect(calls[which](b, nb, a, na, out, ROOM, &count) == LW_BAD_RECTANGLE, "a bad rectangle");
            expect(count == 12345 && equal(out, before, ROOM), "nothing changes");
            expect(lw_region_has(a, na, x, y) == LW_BAD_RECTANGLE && lw_region_bounds(a, na, &all) == LW_BAD_RECTANGLE,
                   "a bad rectangle is told everywhere");
        }
    }
}

/* ---- Rows and blocks: a row is a block of one row ---- */

static int bit_of(const uint8_t *bytes, size_t place)
{
    return bytes[place / 8] >> (7 - place % 8) & 1;
}

static void set_bit(uint8_t *bytes, size_t place, int bit)
{
    uint8_t one = (uint8_t)(1u << (7 - place % 8));
    bytes[place / 8] = (uint8_t)(bit ? bytes[place / 8] | one : bytes[place / 8] & ~one);
}

static int minterm_bit(uint8_t minterm, int b, int c)
{
    return minterm >> (4 + 2 * b + c) & 1;
}

static void check_rows(void)
{
    uint8_t row[BYTES], source[BYTES], right[BYTES], old[BYTES];
    for (int turn = 0; turn < 40000; turn++) {
        for (int i = 0; i < BYTES; i++) {
            row[i] = old[i] = right[i] = (uint8_t)below(256);
            source[i] = (uint8_t)below(256);
        }
        bool single = turn % 2 == 0;
        uint32_t rows = single ? 1 : below(4) + 1, step = single ? below(BYTES) + 1 : below(BYTES / 4) + 1;
        size_t bytes = (size_t)step * rows;
        struct lw_place to = {0, below(8 * step)}, from = {0, below(8 * step)};
        int kind = turn / 2 % 4;
        if (kind == 3 && !single && rows > 1) {
            to.row = below(2);
            from.row = below(2);
            rows -= 1;
        }
        uint32_t most = 8 * step - (to.bit > from.bit || kind < 2 ? to.bit : from.bit), count = below(most + 1);
        if (kind < 2)
            from = to;
        uint8_t minterm = (uint8_t)(below(16) << 4);
        bool bit = below(2) == 1;
        for (uint32_t y = 0; y < rows; y++)
            for (uint32_t x = 0; x < count; x++) {
                size_t d = 8 * (size_t)step * (to.row + y) + to.bit + x, s = 8 * (size_t)step * (from.row + y) + from.bit + x;
                int c = bit_of(old, d), b = bit_of(kind == 3 ? old : source, s);
                set_bit(right, d, kind == 0 ? bit : kind == 1 ? !c : minterm_bit(minterm, b, c));
            }
        int32_t answer = 0, refused = 0;
        uint32_t over = 8 * step - (from.bit > to.bit ? from.bit : to.bit) + 1;
        uint8_t kept[BYTES];
        for (int pass = 0; pass < 2; pass++) {
            uint32_t n = pass == 0 ? over : count;
            if (single && kind == 0)
                answer = lw_row_fill(row, bytes, to.bit, n, bit);
            else if (single && kind == 1)
                answer = lw_row_invert(row, bytes, to.bit, n);
            else if (single && kind == 2)
                answer = lw_row_blit(row, bytes, to.bit, source, bytes, from.bit, n, minterm);
            else if (single)
                answer = lw_row_blit_within(row, bytes, to.bit, from.bit, n, minterm);
            else if (kind == 0)
                answer = lw_block_fill(row, bytes, step, rows, to.bit, n, bit);
            else if (kind == 1)
                answer = lw_block_invert(row, bytes, step, rows, to.bit, n);
            else if (kind == 2)
                answer = lw_block_blit(row, bytes, step, to.bit, source, bytes, step, from.bit, rows, n, minterm);
            else
                answer = lw_block_blit_within(row, bytes, step, &to, &from, rows, n, minterm);
            if (pass == 0) {
                refused = answer;
                memcpy(kept, row, BYTES);
            }
        }
        expect(refused == LW_OUTSIDE && memcmp(kept, old, BYTES) == 0, "bits outside");
        expect(answer == LW_DONE && memcmp(row, right, BYTES) == 0, "the bits of a row or a block");
    }
    uint8_t one = 0;
    expect(lw_block_fill(&one, 1, 1, 2, 0, 1, true) == LW_OUTSIDE, "a row outside");
    expect(lw_block_fill(&one, 1, UINT32_MAX, UINT32_MAX, 0, 1, true) == LW_OUTSIDE, "many rows outside");
    struct lw_place far = {UINT32_MAX, 0}, near = {0, 0};
    expect(lw_block_blit_within(&one, 1, UINT32_MAX, &far, &near, UINT32_MAX, 1, 0xc0) == LW_OUTSIDE, "a far row");
    expect(one == 0, "the byte stays");
}

int main(void)
{
    check_regions();
    check_rows();
    expect(strcmp(lw_text_of(LW_NO_ROOM), "done") != 0, "an answer's text");
    puts("all calls agree");
    return 0;
}
