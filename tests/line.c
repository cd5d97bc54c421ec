/* Lines as an emulator draws them, against colours and refusals worked out from the paper by hand. */
#include <string.h>

#include "caller.h"

/* The most pixels that a line has here, and a word that no line draws. */
#define PIXELS 8
#define OLD 0xDEADBEEFu

static uint32_t store[BULITAMPAW_STORE_WORDS + 1];
static uint8_t table[BULITAMPAW_TABLE_BYTES + 1], normal[4 * PIXELS], overlay[PIXELS];
static size_t store_length, table_length, normal_length, overlay_length, output_length;
static bulitampaw_state state;

/* All zero: one pixel, depth 16, all off. */
static void begin(void) {
    state = bulitampaw_fresh();
    memset(store, 0, sizeof store);
    memset(table, 0, sizeof table);
    memset(normal, 0, sizeof normal);
    memset(overlay, 0, sizeof overlay);
    store_length = BULITAMPAW_STORE_WORDS;
    table_length = overlay_length = 0;
    normal_length = 2;
    output_length = 1;
}

/* So many pixels of so many bytes, on 16 lines. */
static void size(uint32_t width, uint32_t bytes) {
    state.control[1] = 0x0FFF0FFF;
    state.control[7] = 0x000F0000 | (width - 1);
    normal_length = (size_t)width * bytes;
    output_length = width;
}

/* Lends all and compares number, place and output: the colours where there are any, and old words elsewhere. */
static void line(const char *what, uint32_t y, uint32_t number, uint32_t place, const uint32_t *colours, size_t count) {
    uint32_t output[PIXELS + 2];
    for (size_t x = 0; x < PIXELS + 2; x++)
        output[x] = OLD;
    bulitampaw_drawn drawn = bulitampaw_line(state, y, store, store_length, table, table_length, normal, normal_length,
        overlay, overlay_length, output, output_length);
    same(what, drawn.refusal.number, number);
    same(what, drawn.refusal.place, place);
    same(what, memcmp(&drawn.state, &state, sizeof state) != 0, 0);
    for (size_t x = 0; x < PIXELS + 2; x++)
        same(what, output[x], x < count ? colours[x] : OLD);
}

static void draws(const char *what, uint32_t y, const uint32_t *colours, size_t count) {
    line(what, y, 0, 0, colours, count);
}

static void refuses(const char *what, uint32_t y, uint32_t number, uint32_t place) {
    line(what, y, number, place, NULL, 0);
}

/* The end of the paper's whole case. */
static void whole_case(void) {
    static const uint32_t colours[] = {0x102030};
    begin();
    store[37] = 0x102030;
    store[0] = 0x200;
    normal[1] = 5;
    draws("the whole case", 0, colours, 1);
    output_length = 3;
    draws("the words past the width stay", 0, colours, 1);
    refuses("line 1 of one line", 1, 6, 1);
}

/* Windows 3 and 7 by examples (j) and (k): an index of 12 bits, and 5-5-5. */
static void windows(void) {
    static const uint32_t colours[] = {0xABCDEF, 0x8408FF, 0xFF8400};
    begin();
    size(3, 2);
    state.control[0] = 2;
    table[0] = 0x07, table[1] = 0xFF, table[2] = 0x01;
    table[513] = 0x03, table[514] = 0xFF, table[515] = 0xE7;
    table_length = 516;
    store[3] = 0xFFFFE000u | 0x202;
    store[7] = 0x208;
    store[32 + 0x234] = 0xFFABCDEFu;
    normal[0] = 0xF2, normal[1] = 0x34;
    /* Red 16, green 1, blue 31; then red 31, green 16, blue 0 under a bit that isn't used. */
    normal[2] = 0x7C, normal[3] = 0x30;
    normal[4] = 0x82, normal[5] = 0x1F;
    draws("windows 3 and 7", 15, colours, 3);
    table_length = 514;
    refuses("no entry for pixel 1", 15, 8, 1);
    table_length = 3;
    refuses("no whole frame entry", 15, 7, 15);
    table_length = 516;
    store[7] = 0x209;
    refuses("buffer 1 of 5-5-5 at depth 16", 0, 9, 1);
    table_length = BULITAMPAW_TABLE_BYTES + 1;
    refuses("a table that is too long", 0, 5, 2);
    state.control[0] = 0;
    store[0] = 0x120;
    refuses("IDs off: entry 0 has bank 18", 0, 9, 0);
}

/* Cursor over overlay over 8-8-8, with gamma on the lower two: red takes 1 more, green 2 more, blue 3 more. */
static void layers(void) {
    static const uint32_t glyph[] = {0x111111, 0x133659, 0x222222, 0x516273}, cross[] = {0x133659, 0x111111, 0x516273, 0x516273};
    static const uint32_t row[] = {0x111111, 0x111111, 0x111111, 0x111111};
    begin();
    size(4, 4);
    overlay_length = 4;
    state.control[0] = 1 | 4 | 16;
    store[0] = 0x40A;
    for (uint32_t value = 0; value < 253; value++)
        store[4640 + value] = (value + 1) << 16 | (value + 2) << 8 | (value + 3);
    store[4960] = 0x111111, store[4961] = 0x222222, store[4962] = 0x333333;
    for (size_t x = 0; x < 4; x++)
        normal[4 * x] = 0xEE, normal[4 * x + 1] = 0x56, normal[4 * x + 2] = 0x34, normal[4 * x + 3] = 0x12;
    overlay[2] = overlay[3] = 9;
    store[32 + 4352 + 9] = 0x506070;
    /* The cursor stands at (33, 34), so that pixel 2 of line 5 is column 0 of row 2; at (31, 31) column and row are x and y. */
    state.control[8] = 34u << 16 | 33;
    store[4896 + 4] = 0xC0000000u;
    static const uint32_t shifted[] = {0x133659, 0x133659, 0x333333, 0x516273};
    draws("a glyph whose column 0 is pixel 2", 5, shifted, 4);
    state.control[8] = 31u << 16 | 31;
    store[4896 + 10] = 0x48000000;
    draws("glyph cells 1, 0, 2, 0", 5, glyph, 4);
    state.control[0] |= 8;
    state.control[8] = 1;
    draws("the cross-hair's upright arm", 5, cross, 4);
    draws("the cross-hair's level arm", 0, row, 4);
    store[0] = 0x80A;
    refuses("an undefined entry under the cross-hair", 0, 9, 0);
}

/* Each fault in turn is mended, the first in the order first. */
static void order(void) {
    begin();
    size(2, 2);
    state.control[0] = 3 | 0x20;
    state.control[6] = 4095;
    store_length = BULITAMPAW_STORE_WORDS + 1;
    table_length = BULITAMPAW_TABLE_BYTES + 1;
    normal_length = 3;
    overlay_length = 1;
    output_length = 1;
    table[0] = 0x00, table[1] = 0x0E, table[2] = 0x01;
    store[0] = 0x1000;
    refuses("stray control bits", 16, 11, 0);
    state.control[0] = 3;
    refuses("origin and size above the total", 16, 10, 0);
    state.control[6] = 4094;
    refuses("line 16 of 16", 16, 6, 16);
    refuses("a long store", 15, 5, 1);
    store_length--;
    refuses("a long table", 15, 5, 2);
    table_length = 513;
    refuses("a short normal row", 15, 5, 3);
    normal_length++;
    refuses("a short overlay row", 15, 5, 4);
    overlay_length++;
    refuses("a short output", 15, 5, 5);
    output_length++;
    refuses("frame entries up to line 14", 15, 7, 15);
    refuses("a line table of one byte", 14, 8, 0);
    table_length = 514;
    refuses("an undefined entry before no entry", 14, 9, 0);
    store[0] = 0x200;
    refuses("no entry for the second pixel", 14, 8, 1);
}

/* The wrapper draws what the call draws. */
static void by_pointer(void) {
    uint32_t output[3] = {OLD, OLD, OLD};
    bulitampaw_planes planes = {NULL, normal, NULL, 0, 4, 0};
    begin();
    size(2, 2);
    store[0] = 0x208;
    normal[1] = 0x1F, normal[2] = 0x03, normal[3] = 0xE0;
    same("a line by pointer", bulitampaw_state_line(&state, 3, store, &planes, output, 3).number, BULITAMPAW_DONE);
    same("its red pixel", output[0], 0xFF0000);
    same("its green pixel", output[1], 0x00FF00);
    same("the word past it", output[2], OLD);
    same("line 16", bulitampaw_state_line(&state, 16, store, &planes, output, 3).number, BULITAMPAW_NO_LINE);
    same("its place", bulitampaw_state_line(&state, 0xFFFFFFFFu, store, &planes, output, 3).place, 0xFFFFFFFFu);
    same("a short output", bulitampaw_state_line(&state, 3, store, &planes, output, 1).place, BULITAMPAW_OUTPUT);
    planes.normal_length = 3;
    same("a short row", bulitampaw_state_line(&state, 3, store, &planes, output, 3).place, BULITAMPAW_NORMAL);
}

/* The number of a line that is lent nothing. */
static uint32_t number_of_nothing(uint32_t y) {
    return bulitampaw_line(state, y, NULL, 0, NULL, 0, NULL, 0, NULL, 0, NULL, 0).refusal.number;
}

/* What a line answers that is lent the first so many of store, normal row, overlay row and output, and no table. */
static bulitampaw_drawn lent_the_first(size_t parts) {
    static uint32_t output[1];
    return bulitampaw_line(state, 0, parts > 0 ? store : NULL, parts > 0 ? BULITAMPAW_STORE_WORDS : 0, NULL, 0,
        parts > 1 ? normal : NULL, parts > 1 ? 2 : 0, parts > 2 ? overlay : NULL, parts > 2 ? 1 : 0,
        parts > 3 ? output : NULL, parts > 3 ? 1 : 0);
}

/* With a length of 0 goes a null pointer: where a part isn't looked at, and where the length is wrong. */
static void nothing_lent(void) {
    static const uint32_t missing[] = {BULITAMPAW_STORE, BULITAMPAW_NORMAL, BULITAMPAW_OVERLAY, BULITAMPAW_OUTPUT};
    uint32_t output[1];
    begin();
    same("no table and no overlay row, both off",
        bulitampaw_line(state, 0, store, BULITAMPAW_STORE_WORDS, NULL, 0, normal, 2, NULL, 0, output, 1).refusal.number, BULITAMPAW_DONE);
    state.control[0] = 3;
    for (size_t parts = 0; parts < 4; parts++) {
        same("a part that isn't lent", lent_the_first(parts).refusal.number, BULITAMPAW_WRONG_LENGTH);
        same("its place", lent_the_first(parts).refusal.place, missing[parts]);
    }
    same("an empty table", lent_the_first(4).refusal.number, BULITAMPAW_NO_FRAME_ENTRY);
    same("before all that a line that isn't there", number_of_nothing(1), BULITAMPAW_NO_LINE);
    state.control[6] = 1;
    same("before it origin and size", number_of_nothing(1), BULITAMPAW_PAST_TOTAL);
    state.at.y = 4096;
    same("before it the state", number_of_nothing(1), BULITAMPAW_BAD_STATE);
}

int main(void) {
    whole_case();
    windows();
    layers();
    order();
    by_pointer();
    nothing_lent();
    return finished("line");
}
