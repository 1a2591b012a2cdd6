// The work of the row kernels in C: what a compiler makes of it for this kind of processor is what they can reach. Fills, flips, and
// copies from another row and to the left are functions with the kernel's arguments; the others are plain loops over whole bytes, whose
// shifts are those of a first bit 3.
#include "bench.h"

#include <string.h>

#if defined(__GNUC__) && !defined(__clang__)
#pragma GCC optimize("O3")
#define CALLED __attribute__((noipa))
#else
#define CALLED __attribute__((noinline))
#endif
#define INLINED static inline __attribute__((always_inline))

// The bits of a byte from the left from `first` on, before `end`.
static uint8_t mask(uint32_t first, uint32_t end) {
    return (uint8_t)((0xffu >> first) & ~(0xffu >> end));
}

static void fill_edge(uint8_t *byte, uint8_t mask, uint8_t value) {
    *byte = (uint8_t)((*byte & ~mask) | (value & mask));
}

// Gives the bits from `from` on this value: a mask for each end, and memset between them.
CALLED static void fill(uint8_t *row, uint32_t from, uint32_t count, int bit) {
    uint32_t end = from + count, first = (from + 7) / 8, last = end / 8;
    uint8_t value = bit ? 0xff : 0;
    if (first > last) {
        fill_edge(row + last, mask(from % 8, end % 8), value);
        return;
    }
    if (from % 8 > 0) {
        fill_edge(row + first - 1, mask(from % 8, 8), value);
    }
    if (end % 8 > 0) {
        fill_edge(row + last, mask(0, end % 8), value);
    }
    memset(row + first, value, last - first);
}

// Inverts the bits from `from` on: a mask for each end, and whole bytes between them.
CALLED static void flip(uint8_t *row, uint32_t from, uint32_t count) {
    uint32_t end = from + count, first = (from + 7) / 8, last = end / 8;
    if (first > last) {
        row[last] ^= mask(from % 8, end % 8);
        return;
    }
    if (from % 8 > 0) {
        row[first - 1] ^= mask(from % 8, 8);
    }
    for (uint32_t i = first; i < last; i++) {
        row[i] = (uint8_t)~row[i];
    }
    if (end % 8 > 0) {
        row[last] ^= mask(0, end % 8);
    }
}

static int bit_of(const uint8_t *row, uint32_t x) {
    return row[x / 8] >> (7 - x % 8) & 1;
}

// The eight bits of a row from this one on; of its last byte all that follow are 0.
static uint8_t eight_bits(const uint8_t *row, uint32_t from, uint32_t end) {
    uint32_t next = from / 8 + 1;
    uint32_t pair = (uint32_t)row[from / 8] << 8 | (next < (end + 7) / 8 ? row[next] : 0);
    return (uint8_t)(pair >> (8 - from % 8));
}

// One loop for each shift, since vectors of bytes are shifted fast only by a constant.
#define SHIFTED(shift)                                                                   \
    case shift:                                                                          \
        for (uint32_t i = 0; i < bytes; i++) {                                           \
            row[i] = (uint8_t)(source[i] << (shift) | source[i + 1] >> (8 - (shift)));   \
        }                                                                                \
        break

#define SHIFTED_BY_EACH \
    SHIFTED(1);         \
    SHIFTED(2);         \
    SHIFTED(3);         \
    SHIFTED(4);         \
    SHIFTED(5);         \
    SHIFTED(6);         \
    SHIFTED(7)

static void copy_shifted(uint8_t *restrict row, const uint8_t *restrict source, uint32_t bytes, uint32_t shift) {
    switch (shift) {
        SHIFTED_BY_EACH;
    default:
        memcpy(row, source, bytes);
    }
}

// The same to the left in one row, where each byte is read before it is written.
INLINED void move_shifted(uint8_t *row, const uint8_t *source, uint32_t bytes, uint32_t shift) {
    switch (shift) {
        SHIFTED_BY_EACH;
    default:
        memmove(row, source, bytes);
    }
}

// A move by less than a byte has loops of its own, which the compiler sees to read no byte after it is written.
static void move_left(uint8_t *row, uint32_t ahead, uint32_t bytes, uint32_t shift) {
    if (ahead == 0) {
        move_shifted(row, row, bytes, shift);
    } else {
        move_shifted(row, row + ahead, bytes, shift);
    }
}

// Copies bits of another row, or to the left in one row: a mask for each end, and whole bytes between them.
INLINED void copy_bits(uint8_t *row, uint32_t to, const uint8_t *source, uint32_t from, uint32_t count, int in_one_row) {
    uint32_t end = to + count, first = (to + 7) / 8, last = end / 8, source_end = from + count;
    if (first > last) {
        fill_edge(row + last, mask(to % 8, end % 8), (uint8_t)(eight_bits(source, from, source_end) >> to % 8));
        return;
    }
    if (to % 8 > 0) {
        fill_edge(row + first - 1, mask(to % 8, 8), (uint8_t)(eight_bits(source, from, source_end) >> to % 8));
    }
    uint32_t at = from + 8 * first - to;
    if (in_one_row) {
        move_left(row + first, at / 8 - first, last - first, at % 8);
    } else {
        copy_shifted(row + first, source + at / 8, last - first, at % 8);
    }
    if (end % 8 > 0) {
        fill_edge(row + last, mask(0, end % 8), eight_bits(source, at + 8 * (last - first), source_end));
    }
}

// Combines bits of another row, or further right in one row, with those of a row: copies, and else bit by bit.
INLINED void combine_bits(uint8_t *row, uint32_t to, const uint8_t *source, uint32_t from, uint32_t count, uint8_t minterm, int in_one_row) {
    if (minterm == 0xc0) {
        copy_bits(row, to, source, from, count, in_one_row);
        return;
    }
    for (uint32_t i = 0; i < count; i++) {
        uint32_t x = to + i;
        int made = minterm >> (4 + 2 * bit_of(source, from + i) + bit_of(row, x)) & 1;
        fill_edge(row + x / 8, (uint8_t)(128 >> x % 8), made ? 0xff : 0);
    }
}

CALLED static void combine(uint8_t *row, uint32_t to, const uint8_t *source, uint32_t from, uint32_t count, uint8_t minterm) {
    combine_bits(row, to, source, from, count, minterm, 0);
}

CALLED static void combine_to_the_left(uint8_t *row, uint32_t to, uint32_t from, uint32_t count, uint8_t minterm) {
    combine_bits(row, to, row, from, count, minterm, 1);
}

void loop_fill(uint8_t *row, const uint8_t *source, uint32_t bytes) {
    (void)source;
    fill(row, 0, 8 * bytes, 1);
}

void loop_fill_across(uint8_t *row, const uint8_t *source, uint32_t bytes) {
    (void)source;
    fill(row, 3, 8 * bytes, 1);
}

void loop_flip(uint8_t *row, const uint8_t *source, uint32_t bytes) {
    (void)source;
    flip(row, 0, 8 * bytes);
}

void loop_flip_across(uint8_t *row, const uint8_t *source, uint32_t bytes) {
    (void)source;
    flip(row, 3, 8 * bytes);
}

void loop_copy(uint8_t *restrict row, const uint8_t *restrict source, uint32_t bytes) {
    combine(row, 0, source, 0, 8 * bytes, 0xc0);
}

void loop_copy_across(uint8_t *restrict row, const uint8_t *restrict source, uint32_t bytes) {
    combine(row, 3, source, 0, 8 * bytes, 0xc0);
}

void loop_copy_to_the_left(uint8_t *row, const uint8_t *source, uint32_t bytes) {
    (void)source;
    combine_to_the_left(row, 3, 8, 8 * bytes, 0xc0);
}

void loop_shift_to_the_right(uint8_t *row, const uint8_t *source, uint32_t bytes) {
    (void)source;
    for (uint32_t i = bytes + 1; i > 1; i--) {
        row[i] = (uint8_t)(row[i - 2] << 5 | row[i - 1] >> 3);
    }
}

void loop_exclusive_or(uint8_t *restrict row, const uint8_t *restrict source, uint32_t bytes) {
    for (uint32_t i = 0; i < bytes; i++) {
        row[i] ^= source[i];
    }
}

void loop_shift_exclusive_or(uint8_t *restrict row, const uint8_t *restrict source, uint32_t bytes) {
    for (uint32_t i = 0; i < bytes; i++) {
        row[i] ^= (uint8_t)(source[i] << 5 | source[i + 1] >> 3);
    }
}
