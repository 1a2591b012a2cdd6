/* Plays a script of one task on a desk, call by call, and writes the report that `layers replay` writes of it:
 *
 *     layers check < SCRIPT | play
 *
 * What `layers check` writes is the script's canonical text, so the lines need no test here; a good script without areas may also
 * come as it is. A script's desk refuses more than a program's does: a name that was opened before, and in version 1 a layer that
 * isn't wholly on the screen. */
#include <layers.h>
#include <stdarg.h>
#include <stdio.h>
#include <stdlib.h>

enum { LINE = 600, WORDS = 70, NAME = 17, NAMES = 128, BITMAPS = 16 };

static struct lw_desk desk = LW_NO_DESK;
static struct lw_sizes sizes;
static struct lw_glyphs glyphs;
static int version = 1;

static struct lw_bitmap bitmaps[BITMAPS];
static char bitmap_names[BITMAPS][NAME];
static uint32_t bitmap_count;
static uint8_t *bits;
static size_t bits_count;

/* By their slots; `inner` is the inner layer of a window of two. */
static struct {
    char name[NAME], inner[NAME];
    bool was_opened;
} layers[NAMES];
static uint32_t layer_count;

static char task[NAME];
static FILE *replies;
static unsigned calls;

static void fail(const char *what)
{
    fprintf(stderr, "play: %s\n", what);
    exit(1);
}

static void must(int32_t answer)
{
    if (answer != LW_DONE)
        fail(lw_text_of(answer));
}

static void *longer(void *block, size_t bytes)
{
    block = realloc(block, bytes);
    if (!block)
        fail("memory ran out");
    return block;
}

static bool is(const char *word, const char *other)
{
    return strcmp(word, other) == 0;
}

static int32_t number_of(const char *word)
{
    return (int32_t)strtol(word, NULL, 10);
}

static uint8_t byte_of(const char *digits)
{
    char both[3] = {digits[0], digits[1], 0};
    return (uint8_t)strtol(both, NULL, 16);
}

/* Names of layers stand for slots in the order in which they come first. */
static uint32_t slot_of(const char *name)
{
    for (uint32_t slot = 0; slot < layer_count; slot++)
        if (is(layers[slot].name, name))
            return slot;
    strncpy(layers[layer_count].name, name, NAME - 1);
    return layer_count++;
}

static uint32_t bitmap_of(const char *name)
{
    uint32_t number = 0;
    while (!is(bitmap_names[number], name))
        number++;
    return number;
}

/* Cuts a line at its spaces. A text, which is the last word, loses its quotes. */
static int split(char *line, char **words)
{
    int count = 0;
    line[strcspn(line, "\n")] = 0;
    while (*line) {
        words[count++] = *line == '"' ? line + 1 : line;
        line += *line == '"' ? strcspn(line + 1, "\"") + 1 : strcspn(line, " ");
        if (*line)
            *line++ = 0;
    }
    return count;
}

/* ---- What stands before the task. The hooks are those that the program has. ---- */
static void read_line(char *line)
{
    do {
        if (!fgets(line, LINE, stdin))
            fail("the script ends too early");
    } while (line[0] == '#' || line[0] == '\n');
}

static void read_bitmap(char **words)
{
    struct lw_bitmap *bitmap = &bitmaps[bitmap_count];
    char line[LINE];
    strncpy(bitmap_names[bitmap_count++], words[1], NAME - 1);
    bitmap->width = (uint32_t)number_of(words[2]);
    bitmap->height = (uint32_t)number_of(words[3]);
    bitmap->depth = (uint32_t)number_of(words[4]);
    bitmap->first = (uint32_t)bits_count;
    for (uint32_t row = 0; row < bitmap->height * bitmap->depth; row++) {
        size_t step = (bitmap->width + 15) / 16 * 2;
        read_line(line);
        bits = (uint8_t *)longer(bits, bits_count + step);
        for (size_t i = 0; i < step; i++)
            bits[bits_count++] = byte_of(line + 2 * i);
    }
}

static void read_head(void)
{
    char line[LINE], *words[WORDS];
    while (!task[0]) {
        read_line(line);
        split(line, words);
        if (is(words[0], "layers"))
            version = number_of(words[1]);
        if (is(words[0], "screen")) {
            sizes.width = (uint32_t)number_of(words[1]);
            sizes.height = (uint32_t)number_of(words[2]);
            sizes.depth = (uint32_t)number_of(words[3]);
        }
        for (int row = 0; row < 8 && is(words[0], "glyph"); row++)
            glyphs.rows[byte_of(words[1]) - 0x20][row] = byte_of(words[2] + 2 * row);
        if (is(words[0], "bitmap"))
            read_bitmap(words);
        if (is(words[0], "task"))
            strncpy(task, words[1], NAME - 1);
    }
}

static void open_desk(void)
{
    static const struct lw_hook hooks[6] = {{0, 1}, {1, 1}, {2, 1}, {3, 1}, {4, 3}, {7, 2}};
    static const uint8_t pens[9][2] = {{1, 1}, {2, 2}, {0, 1}, {2, 3}, {1, 1}, {2, 2}, {3, 3}, {3, 3}, {0, 0}};
    uint8_t tiles[9 * 64];
    for (int place = 0; place < 9 * 64; place++)
        tiles[place] = pens[place / 64][(place % 64 / 8 + place % 8) % 2];
    sizes.slots = version == 1 ? 64 : NAMES;
    bits = (uint8_t *)longer(bits, bits_count + 1);
    must(lw_desk_open_with(&desk, &sizes, &glyphs, bitmaps, bitmap_count, bits, bits_count, hooks, 6, tiles, sizeof tiles));
}

/* ---- The calls. ---- */
static const char *const messages[] = {"refresh", "newsize", "change", "active", "inactive"};

static void write_reply(struct lw_reply reply, const struct lw_rectangle *rects)
{
    static const char *const words[] = {"ok", "pen", "outside", "none", "layer", "region", "message", "not-open", "already-open",
                                        "not-window", "not-owner", "backdrop", "not-super", "in-update", "not-in-update",
                                        "out-of-bounds", "too-many-rects"};
    fprintf(replies, "%s", words[reply.kind]);
    if (reply.kind == LW_PEN || reply.kind == LW_RECTANGLES)
        fprintf(replies, " %u", (unsigned)reply.number);
    if (reply.kind == LW_LAYER)
        fprintf(replies, " %s", layers[reply.number].name);
    if (reply.kind == LW_MESSAGE)
        fprintf(replies, " %s", messages[reply.number]);
    for (unsigned i = 0; reply.kind == LW_RECTANGLES && i < reply.number; i++)
        fprintf(replies, " %d %d %d %d", rects[i].min_x, rects[i].min_y, rects[i].max_x, rects[i].max_y);
    fprintf(replies, "\n");
}

/* Where version 1 keeps a layer on the screen, the call becomes one that each desk refuses as out of bounds. */
static void keep_on_screen(struct lw_call *call)
{
    struct lw_rectangle now;
    bool creates = call->kind == LW_CREATE || call->kind == LW_OPEN_WINDOW;
    int32_t x = creates ? call->make.x : call->x, y = creates ? call->make.y : call->y;
    int32_t w = creates ? call->make.w : call->w, h = creates ? call->make.h : call->h;
    if (call->kind == LW_MOVE_BY || call->kind == LW_SIZE_BY) {
        if (lw_desk_bounds(&desk, call->slot, &now) != LW_DONE)
            return;
        x += now.min_x;
        y += now.min_y;
        w += now.max_x - now.min_x + 1;
        h += now.max_y - now.min_y + 1;
    } else if (!creates && call->kind != LW_SET_BOX)
        return;
    if (x >= 0 && y >= 0 && x + w <= (int32_t)sizes.width && y + h <= (int32_t)sizes.height)
        return;
    if (creates) {
        call->make.x = INT16_MAX;
        call->make.w = 2;
    } else {
        call->kind = LW_SIZE_BY;
        call->w = call->h = INT16_MIN;
    }
}

static void make_call(struct lw_call *call, const char *text)
{
    struct lw_reply reply = {LW_ALREADY_OPEN, 0};
    struct lw_rectangle rects[128];
    bool creates = call->kind == LW_CREATE || call->kind == LW_OPEN_WINDOW;
    if (version == 1)
        keep_on_screen(call);
    if (!creates || !layers[call->slot].was_opened)
        must(lw_desk_call(&desk, call, (const uint8_t *)text, strlen(text), &reply, rects, 128));
    if (creates && reply.kind == LW_OK)
        layers[call->slot].was_opened = true;
    write_reply(reply, rects);
    calls++;
}

/* create L KIND PLACE X0 Y0 X1 Y1 .. and open L KIND PLACE X Y W H .. "TITLE" */
static void create(char **words, int count)
{
    bool is_window = is(words[0], "open"), is_super = is(words[2], "super");
    struct lw_call call = lw_new_call(is_window ? LW_OPEN_WINDOW : LW_CREATE, slot_of(words[1]));
    struct lw_make *make = &call.make;
    *make = lw_new_make(number_of(words[4]), number_of(words[5]), number_of(words[6]), number_of(words[7]),
                        is_super ? LW_SUPER_BITMAP : is(words[2], "smart") ? LW_SMART : LW_SIMPLE);
    if (is_window) {
        make->w = number_of(words[6]);
        make->h = number_of(words[7]);
    }
    make->is_behind = is(words[3], "behind");
    make->bits_w = is_super ? (uint32_t)number_of(words[8]) : 0;
    make->bits_h = is_super ? (uint32_t)number_of(words[9]) : 0;
    call.flag = is_window && !is_super;
    for (int i = is_super ? 10 : 8; i < count - is_window; i++) {
        if (is(words[i], "backdrop"))
            make->is_backdrop = true;
        else if (is(words[i], "borderless"))
            call.flag = false;
        else if (is(words[i], "nocare"))
            call.is_nocare = true;
        else if (is(words[i], "hook")) {
            make->has_hook = true;
            make->hook = (uint32_t)number_of(words[++i]);
        } else
            for (const char *it = words[++i]; *it; it++)
                call.number |= (uint8_t)(1 << (strchr("rncai", *it) - "rncai"));
    }
    make_call(&call, is_window ? words[count - 1] : "");
}

/* The other calls, with what their words are: a layer (L) or a register (R); another of these (M, S) or a bitmap (B); numbers
 * and a rectangle (r); a number of a byte (n), in hexadecimal digits (m), or of a hook (N); `full` or `part` (f); a text (t). */
static const struct verb {
    const char *name;
    uint32_t kind, operation;
    const char *words;
} verbs[] = {
    {"orrect", LW_JOIN_RECT, LW_OR, "Rr"},
    {"andrect", LW_JOIN_RECT, LW_AND, "Rr"},
    {"xorrect", LW_JOIN_RECT, LW_XOR, "Rr"},
    {"clearrect", LW_JOIN_RECT, LW_CLEAR, "Rr"},
    {"orregion", LW_JOIN_REGION, LW_OR, "SR"},
    {"andregion", LW_JOIN_REGION, LW_AND, "SR"},
    {"xorregion", LW_JOIN_REGION, LW_XOR, "SR"},
    {"clearregion", LW_CLEAR_REGION, 0, "R"},
    {"close", LW_CLOSE, 0, "L"},
    {"front", LW_TO_FRONT, 0, "L"},
    {"behind", LW_TO_BACK, 0, "L"},
    {"infront", LW_IN_FRONT_OF, 0, "LM"},
    {"move", LW_MOVE_BY, 0, "Lxy"},
    {"size", LW_SIZE_BY, 0, "Lwh"},
    {"box", LW_SET_BOX, 0, "Lxywh"},
    {"activate", LW_ACTIVATE, 0, "L"},
    {"hook", LW_SET_HOOK, 0, "LN"},
    {"which", LW_WHICH, 0, "xy"},
    {"apen", LW_SET_A, 0, "Ln"},
    {"bpen", LW_SET_B, 0, "Ln"},
    {"mode", LW_SET_MODE, 0, "Ln"},
    {"mask", LW_SET_MASK, 0, "Ln"},
    {"clip", LW_CLIP, 0, "LS"},
    {"unclip", LW_UNCLIP, 0, "L"},
    {"refresh", LW_BEGIN, 0, "L"},
    {"endrefresh", LW_END, 0, "Lf"},
    {"scroll", LW_SCROLL, 0, "Lxy"},
    {"getmsg", LW_TAKE_MESSAGE, 0, "L"},
    {"title", LW_SET_TITLE, 0, "Lt"},
    {"at", LW_AT, 0, "Lxy"},
    {"write", LW_WRITE_PIXEL, 0, "Lxy"},
    {"read", LW_READ_PIXEL, 0, "Lxy"},
    {"fill", LW_FILL, 0, "Lr"},
    {"draw", LW_DRAW_TO, 0, "Lxy"},
    {"text", LW_TEXT, 0, "Lt"},
    {"setrast", LW_SET_RAST, 0, "Ln"},
    {"scrollraster", LW_SCROLL_RASTER, 0, "Lxyr"},
    {"put", LW_PUT, 0, "BXYLxywhm"},
    {"blit", LW_BLIT, 0, "MXYLxywhm"},
};

static void fill_in(struct lw_call *call, char what, char *const *words)
{
    int32_t number = number_of(words[0]);
    switch (what) {
    case 'L': call->slot = slot_of(words[0]); return;
    case 'R': call->slot = (uint32_t)number; return;
    case 'M': call->other = slot_of(words[0]); return;
    case 'B': call->other = bitmap_of(words[0]); return;
    case 'S':
    case 'N': call->other = (uint32_t)number; return;
    case 'x': call->x = number; return;
    case 'y': call->y = number; return;
    case 'w': call->w = number; return;
    case 'h': call->h = number; return;
    case 'X': call->source_x = number; return;
    case 'Y': call->source_y = number; return;
    case 'n': call->number = (uint8_t)number; return;
    case 'm': call->number = byte_of(words[0]); return;
    case 'f': call->flag = is(words[0], "full"); return;
    case 'r': lw_set_rect(call, number, number_of(words[1]), number_of(words[2]), number_of(words[3])); return;
    }
}

static void call_verb(const struct verb *verb, char **words)
{
    struct lw_call call = lw_new_call(verb->kind, 0);
    const char *text = "";
    call.operation = verb->operation;
    words++;
    for (const char *what = verb->words; *what; what++) {
        if (*what == 't')
            text = *words;
        fill_in(&call, *what, words);
        words += *what == 'r' ? 4 : 1;
    }
    make_call(&call, text);
}

/* ---- Lines. ---- */
static void play(char *line);

static void play_as(const char *format, ...)
{
    char line[LINE];
    va_list words;
    va_start(words, format);
    vsnprintf(line, sizeof line, format, words);
    va_end(words);
    play(line);
}

/* gopen G I KIND PLACE X Y W H [ask SET] "TITLE" */
static void open_two(char **words, int count)
{
    char asks[16] = "";
    const char *outer = words[1], *inner = words[2];
    int x = number_of(words[5]), y = number_of(words[6]), w = number_of(words[7]), h = number_of(words[8]);
    if (count == 12)
        snprintf(asks, sizeof asks, "ask %s ", words[10]);
    play_as("open %s smart %s %d %d %d %d %s\"%s\"", outer, words[4], x, y, w, h, asks, words[count - 1]);
    play_as("open %s %s %s %d %d %d %d borderless %s\"\"", inner, words[3], words[4], x + 4, y + 11, w - 8, h - 13, asks);
    play_as("infront %s %s", inner, outer);
    strncpy(layers[slot_of(outer)].inner, inner, NAME - 1);
}

/* The other lines of a window of two layers; each stands for two calls. */
static void play_two(char **words)
{
    const char *outer = words[1], *inner = layers[slot_of(outer)].inner;
    if (is(words[0], "gbox")) {
        int x = number_of(words[2]), y = number_of(words[3]), w = number_of(words[4]), h = number_of(words[5]);
        play_as("box %s %d %d %d %d", outer, x, y, w, h);
        play_as("box %s %d %d %d %d", inner, x + 4, y + 11, w - 8, h - 13);
    } else if (is(words[0], "ginfront")) {
        play_as("infront %s %s", outer, words[2]);
        play_as("infront %s %s", inner, outer);
    } else if (is(words[0], "gbehind")) {
        play_as("behind %s", inner);
        play_as("behind %s", outer);
    } else {
        play_as("%s %s", words[0] + 1, outer);
        play_as("%s %s", words[0] + 1, inner);
    }
}

static void play(char *line)
{
    char *words[WORDS];
    int count = split(line, words);
    for (size_t i = 0; i < sizeof verbs / sizeof verbs[0]; i++) {
        if (is(verbs[i].name, words[0])) {
            call_verb(&verbs[i], words);
            return;
        }
    }
    if (is(words[0], "create") || is(words[0], "open"))
        create(words, count);
    else if (is(words[0], "lock") || is(words[0], "unlock"))
        slot_of(words[1]); /* no call, but it may be the name's first line */
    else if (is(words[0], "gopen"))
        open_two(words, count);
    else if (words[0][0] == 'g')
        play_two(words);
    else if (!is(words[0], "hold") && !is(words[0], "release"))
        fail(words[0]);
}

/* ---- The report. ---- */
static void report_order(void)
{
    printf("order %u\n", calls);
    for (unsigned i = 0; i < calls; i++)
        printf(i % 64 == 63 || i == calls - 1 ? "0\n" : "0 ");
}

/* (what a row holds behind its last pixel is left out) */
static void report_planes(void)
{
    struct lw_rectangle screen = {0, 0, (int16_t)(sizes.width - 1), (int16_t)(sizes.height - 1)};
    uint32_t step = (sizes.width + 15) / 16 * 2;
    size_t count, room = (size_t)step * sizes.height * sizes.depth;
    uint8_t *planes = (uint8_t *)longer(NULL, room), *byte = planes;
    must(lw_desk_planes(&desk, &screen, planes, room, &count));
    printf("planes %u %u %u\n", (unsigned)sizes.width, (unsigned)sizes.height, (unsigned)sizes.depth);
    for (uint32_t row = 0; row < sizes.depth * sizes.height; row++) {
        if (row % sizes.height == 0)
            printf("plane %u\n", (unsigned)(row / sizes.height));
        for (uint32_t column = 0; column < 8 * step; column += 8) {
            uint32_t behind = column + 8 <= sizes.width ? 0 : column >= sizes.width ? 8 : column + 8 - sizes.width;
            printf("%02x", (unsigned)(*byte++ >> behind << behind));
        }
        printf("\n");
    }
    free(planes);
}

static void report_rects(const char *what, int32_t (*read)(struct lw_desk *, uint32_t, struct lw_rectangle *, size_t, size_t *))
{
    size_t room = 128, count;
    struct lw_rectangle *rects = (struct lw_rectangle *)longer(NULL, room * sizeof *rects);
    for (uint32_t slot = 0; slot < layer_count; slot++) {
        int32_t answer = read(&desk, slot, rects, room, &count);
        if (answer == LW_NO_ROOM) {
            room = count;
            rects = (struct lw_rectangle *)longer(rects, room * sizeof *rects);
            answer = read(&desk, slot, rects, room, &count);
        }
        if (answer == LW_NO_LAYER)
            continue;
        must(answer);
        printf("%s %s %u\n", what, layers[slot].name, (unsigned)count);
        for (size_t i = 0; i < count; i++)
            printf("%d %d %d %d\n", rects[i].min_x, rects[i].min_y, rects[i].max_x, rects[i].max_y);
    }
    free(rects);
}

static void report_messages(void)
{
    size_t room = 128, count;
    uint8_t *list = (uint8_t *)longer(NULL, room);
    for (uint32_t slot = 0; slot < layer_count; slot++) {
        int32_t answer = lw_desk_messages(&desk, slot, list, room, &count);
        if (answer == LW_NO_ROOM) {
            room = count;
            list = (uint8_t *)longer(list, room);
            answer = lw_desk_messages(&desk, slot, list, room, &count);
        }
        if (answer == LW_NO_LAYER || answer == LW_NO_WINDOW)
            continue;
        must(answer);
        printf("messages %s %u\n", layers[slot].name, (unsigned)count);
        for (size_t i = 0; i < count; i++)
            printf("%s\n", messages[list[i]]);
    }
    free(list);
}

static void report_replies(void)
{
    int c;
    printf("replies %s %u\n", task, calls);
    rewind(replies);
    while ((c = getc(replies)) != EOF)
        putchar(c);
    printf("done\n");
}

int main(void)
{
    char line[LINE];
    replies = tmpfile();
    if (!replies)
        fail("there is no place for the replies");
    read_head();
    open_desk();
    for (read_line(line); !is(line, "end\n"); read_line(line))
        play(line);
    report_order();
    report_planes();
    report_rects("visible", lw_desk_visible);
    report_rects("damage", lw_desk_damage);
    report_messages();
    report_replies();
    must(lw_desk_close(&desk));
    free(bits);
    fclose(replies);
    return 0;
}
