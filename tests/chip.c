/* The chip as an emulator calls it, against answers worked out from the paper by hand. */
#include <string.h>

#include "caller.h"

static uint32_t store[BULITAMPAW_STORE_WORDS + 1];
static bulitampaw_state state;

static void writes(const char *what, uint32_t address, uint32_t value, uint32_t number, uint32_t place) {
    bulitampaw_written written = bulitampaw_write(state, store, BULITAMPAW_STORE_WORDS, address, value);
    state = written.state;
    same(what, written.refusal.number, number);
    same(what, written.refusal.place, place);
}

static void reads(const char *what, uint32_t address, uint32_t word) {
    bulitampaw_read_back read = bulitampaw_read(state, store, BULITAMPAW_STORE_WORDS, address);
    state = read.state;
    same(what, read.refusal.number, 0);
    same(what, read.word, word);
}

static void dots(const char *what, uint32_t count, uint32_t reported, uint32_t blank, uint32_t x, uint32_t y) {
    bulitampaw_dotted dotted = bulitampaw_dots(state, store, BULITAMPAW_STORE_WORDS, count);
    state = dotted.state;
    same(what, dotted.refusal.number, 0);
    same(what, dotted.signals.reported, reported);
    same(what, dotted.signals.blank, blank);
    same(what, state.at.x, x);
    same(what, state.at.y, y);
}

/* The start of the paper's whole case: a colour write waits until the first blanked dot. */
static void whole_case(void) {
    state = bulitampaw_fresh();
    reads("room of a fresh queue", 0x24, 64);
    writes("colour write to entry 5", 0x020014, 0x102030, 0, 0);
    reads("room with one waiting", 0x24, 63);
    reads("entry 5 while the write waits", 0x020014, 0);
    writes("horizontal blank from 0 to 1", 0x10, 0x00010000, 0, 0);
    writes("window entry 0", 0x010000, 0x200, 0, 0);
    dots("no dots", 0, 0, 0, 0, 0);
    dots("one dot", 1, 1, 1, 0, 0);
    reads("entry 5 once it was applied", 0xAB020014u, 0x102030);
    reads("room once it was applied", 0x24, 64);
    same("the store's word of entry 5", store[37], 0x102030);
}

static void refusals(void) {
    writes("no register", 0xFF00002Cu, 0, 1, 0x2C);
    writes("no word at 2", 2, 0, 1, 2);
    writes("read only before stray bits", 0x24, 0xFFFFFFFFu, 2, 0x24);
    writes("stray bits", 0x1C, 0x08000000, 3, 0x1C);
    for (uint32_t entry = 0; entry < 64; entry++)
        writes("a colour write that waits", 0x020000 + 4 * entry, entry, 0, 0);
    writes("the 65th", 0x020000, 1, 4, 0x020000);
    writes("stray bits before no room", 0x020000, 0x01000000, 3, 0x020000);
    writes("a gamma word while 64 wait", 0x030000, 0xFFFFFF, 0, 0);
    same("a store that is too long", bulitampaw_write(state, store, BULITAMPAW_STORE_WORDS + 1, 0, 0).refusal.number, 5);
    same("its place", bulitampaw_write(state, store, 0, 0, 0).refusal.place, 1);
    bulitampaw_state bad = state;
    bad.at.x = 4096;
    same("a state against its rule", bulitampaw_dot(bad, store, 0).refusal.number, 11);
    same("its position stays", bulitampaw_dot(bad, store, 0).state.at.x, 4096);
}

/* Refused calls hand the state back as it was and leave the store, and a length of 0 goes with a null pointer. */
static void nothing_lent(void) {
    bulitampaw_state bad = bulitampaw_fresh();
    state = bulitampaw_fresh();
    bad.queue.waiting = 65;
    same("a write of no store", bulitampaw_write(state, NULL, 0, 0, 0).refusal.number, BULITAMPAW_WRONG_LENGTH);
    same("a read of no store", bulitampaw_read(state, NULL, 0, 0).refusal.place, BULITAMPAW_STORE);
    same("a read that is refused", bulitampaw_read(state, NULL, 0, 0x24).word, 0);
    same("a dot of no store", bulitampaw_dot(state, NULL, 0).refusal.number, BULITAMPAW_WRONG_LENGTH);
    same("dots of no store", bulitampaw_dots(state, NULL, 0, 7).signals.reported, 0);
    same("no dots of no store", bulitampaw_dots(state, NULL, 0, 0).refusal.number, BULITAMPAW_WRONG_LENGTH);
    same("a bad state and no store", bulitampaw_write(bad, NULL, 0, 0, 0).refusal.number, BULITAMPAW_BAD_STATE);
    same("a read of a bad state", bulitampaw_read(bad, NULL, 0, 0x24).refusal.number, BULITAMPAW_BAD_STATE);
    bulitampaw_dotted dotted = bulitampaw_dots(bad, NULL, 0, 7);
    same("dots of a bad state", dotted.refusal.number, BULITAMPAW_BAD_STATE);
    same("a bad state comes back", memcmp(&dotted.state, &bad, sizeof bad) != 0, 0);
}

/* Horizontal sync at 1 and 2 of 4 and vertical sync on line 1 of 2, dot by dot through the wrappers. */
static void by_pointer(void) {
    static const uint32_t hsync[8] = {0, 1, 1, 0, 0, 1, 1, 0}, vsync[8] = {0, 0, 0, 0, 1, 1, 1, 1};
    static const uint32_t blank[8] = {0, 0, 0, 1, 0, 0, 0, 1};
    bulitampaw_state s = bulitampaw_fresh();
    bulitampaw_signals signals = {9, 9, 9, 9};
    uint32_t word = 9;
    memset(store, 0, sizeof store);
    same("a total of 4 by 2", bulitampaw_state_write(&s, store, 0x04, 0x00010003).number, BULITAMPAW_DONE);
    same("horizontal sync", bulitampaw_state_write(&s, store, 0x08, 0x00030001).number, BULITAMPAW_DONE);
    same("vertical sync", bulitampaw_state_write(&s, store, 0x0C, 0x00000001).number, BULITAMPAW_DONE);
    same("horizontal blank", bulitampaw_state_write(&s, store, 0x10, 0x00000003).number, BULITAMPAW_DONE);
    same("a colour write", bulitampaw_state_write(&s, store, 0x024000 - 4, 0xABCDEF).number, BULITAMPAW_DONE);
    same("stray bits", bulitampaw_state_write(&s, store, 0xFF000000u, 0x20).number, BULITAMPAW_STRAY_BITS);
    same("their place", bulitampaw_state_write(&s, store, 0xFF000004u, 0x1000).place, 4);
    same("no dots", bulitampaw_state_dots(&s, store, 0, &signals).number, BULITAMPAW_DONE);
    same("their signals", signals.reported + signals.hsync + signals.vsync + signals.blank, 0);
    for (uint32_t dot = 0; dot < 8; dot++) {
        same("the position", bulitampaw_state_read(&s, store, 0x28, &word).number, BULITAMPAW_DONE);
        same("the position's word", word, dot / 4 << 16 | dot % 4);
        same("the colour before its dot", store[32 + 4095], dot < 4 ? 0u : 0xABCDEFu);
        same("a dot", bulitampaw_state_dot(&s, store, &signals).number, BULITAMPAW_DONE);
        same("a dot reports", signals.reported, 1);
        same("horizontal sync of a dot", signals.hsync, hsync[dot]);
        same("vertical sync of a dot", signals.vsync, vsync[dot]);
        same("blank of a dot", signals.blank, blank[dot]);
    }
    same("many dots", bulitampaw_state_dots(&s, store, 4000000006u, &signals).number, BULITAMPAW_DONE);
    same("the last of them", signals.hsync << 2 | signals.vsync << 1 | signals.blank, 6);
    same("where they lead", s.at.y << 16 | s.at.x, 0x00010002);
    same("dots without signals", bulitampaw_state_dots(&s, store, 1, NULL).number, BULITAMPAW_DONE);
    same("one dot without signals", bulitampaw_state_dot(&s, store, NULL).number, BULITAMPAW_DONE);
    same("no register", bulitampaw_state_read(&s, store, 0x2C, &word).number, BULITAMPAW_NO_REGISTER);
    same("the word of no register", word, 0);
    s.control[8] = 0x1000;
    same("a dot of a bad state", bulitampaw_state_dot(&s, store, &signals).number, BULITAMPAW_BAD_STATE);
    same("its signals", signals.reported + signals.hsync + signals.vsync + signals.blank, 0);
}

int main(void) {
    whole_case();
    refusals();
    nothing_lent();
    by_pointer();
    return finished("chip");
}
