/* A few calls on a desk, over and over, with the first allocation refused, then the second, and so on until none is left to
 * refuse. The call that lacked memory says so, lists no change of the screen, and made again it does what it would have done.
 * Linked with -Wl,--wrap=malloc,--wrap=realloc. */
#include <layers.h>
#include <stdio.h>
#include <stdlib.h>

void *__real_malloc(size_t bytes);
void *__real_realloc(void *block, size_t bytes);
void *__wrap_malloc(size_t bytes);
void *__wrap_realloc(void *block, size_t bytes);

/* How many allocations come before the one that is refused; none is where it is below 0. */
static long before = -1;
static bool was_refused;

static bool is_refused(void)
{
    was_refused = was_refused || before == 0;
    return before >= 0 && before-- == 0;
}

void *__wrap_malloc(size_t bytes)
{
    return is_refused() ? NULL : __real_malloc(bytes);
}

void *__wrap_realloc(void *block, size_t bytes)
{
    return is_refused() ? NULL : __real_realloc(block, bytes);
}

/* How many rectangles the list of changes has, which stay there; 0 without a desk. */
static size_t listed(struct lw_desk *desk)
{
    struct lw_rectangle none[1];
    size_t count = 0;
    lw_desk_changed(desk, none, 0, &count);
    return count;
}

/* The call, and the same again where memory was refused it. */
#define MUST(call)                                                                             \
    do {                                                                                       \
        size_t had = listed(&desk);                                                            \
        int32_t answer = call;                                                                 \
        if (answer == LW_NO_MEMORY && was_refused && listed(&desk) == had)                     \
            answer = call;                                                                     \
        if (answer != LW_OK) {                                                                 \
            fprintf(stderr, "no_memory: line %d answered %d\n", __LINE__, (int)answer);        \
            exit(1);                                                                           \
        }                                                                                      \
    } while (0)

static void play(void)
{
    static const struct lw_glyphs glyphs = {{{0}}};
    static const struct lw_sizes sizes = {64, 32, 2, 3};
    static const struct lw_bitmap bitmap = {16, 2, 1, 0};
    static const struct lw_hook hook = {0, 1};
    static const uint8_t bits[4] = {0x55, 0x55, 0xaa, 0xaa};
    static uint8_t tiles[64], out[64 * 32];
    struct lw_rectangle part = {0, 0, 63, 31};
    struct lw_make make = lw_new_make(8, 8, 47, 23, LW_SIMPLE);
    struct lw_desk desk = LW_NO_DESK;
    struct lw_rectangle changed[16];
    size_t count;
    make.has_hook = true;
    tiles[9] = 3;
    MUST(lw_desk_open_with(&desk, &sizes, &glyphs, &bitmap, 1, bits, sizeof bits, &hook, 1, tiles, sizeof tiles));
    MUST(lw_create_upfront_layer(&desk, 0, 0, 0, 31, 15, LW_SMART));
    MUST(lw_create_layer(&desk, 1, &make));
    MUST(lw_blt_bit_map_rast_port(&desk, 0, 0, 0, 1, 2, 2, 16, 2, LW_COPY_MINTERM));
    MUST(lw_rect_fill(&desk, 0, 0, 0, 20, 12));
    MUST(lw_upfront_layer(&desk, 0));
    MUST(lw_move_layer(&desk, 0, 5, 3));
    MUST(lw_text(&desk, 1, "abc"));
    MUST(lw_desk_pens(&desk, &part, out, sizeof out));
    MUST(lw_desk_planes(&desk, &part, out, sizeof out, &count));
    MUST(lw_desk_changed(&desk, changed, 16, &count));
    MUST(lw_delete_layer(&desk, 1));
    MUST(lw_desk_close(&desk));
}

int main(void)
{
    long count = 0;
    do {
        before = count++;
        was_refused = false;
        play();
    } while (was_refused);
    printf("no_memory: %ld allocations were refused\n", count - 1);
    return 0;
}
