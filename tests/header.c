/* The header's numbers, layouts, names and helpers, held to the paper's and to how the library lays its answers out. */
#include <string.h>

#include "caller.h"

/* The header's version is the library's. */
static void version(void) {
    same("the header's version", BULITAMPAW_VERSION, 1);
    same("the library's version", bulitampaw_version_1(), 1);
    same("the library's version by the header's number", BULITAMPAW_LIBRARY_VERSION(), BULITAMPAW_VERSION);
}

static void refusals(void) {
    same("done", BULITAMPAW_DONE, 0);
    same("no register", BULITAMPAW_NO_REGISTER, 1);
    same("read only", BULITAMPAW_READ_ONLY, 2);
    same("stray bits", BULITAMPAW_STRAY_BITS, 3);
    same("queue full", BULITAMPAW_QUEUE_FULL, 4);
    same("wrong length", BULITAMPAW_WRONG_LENGTH, 5);
    same("no line", BULITAMPAW_NO_LINE, 6);
    same("no frame entry", BULITAMPAW_NO_FRAME_ENTRY, 7);
    same("no line entry", BULITAMPAW_NO_LINE_ENTRY, 8);
    same("undefined entry", BULITAMPAW_UNDEFINED_ENTRY, 9);
    same("past the total", BULITAMPAW_PAST_TOTAL, 10);
    same("bad state", BULITAMPAW_BAD_STATE, 11);
    same("wrong record", BULITAMPAW_WRONG_RECORD, 12);
    same("file ends", BULITAMPAW_FILE_ENDS, 13);
    same("too much", BULITAMPAW_TOO_MUCH, 14);
}

static void places(void) {
    same("store", BULITAMPAW_STORE, 1);
    same("table", BULITAMPAW_TABLE, 2);
    same("normal", BULITAMPAW_NORMAL, 3);
    same("overlay", BULITAMPAW_OVERLAY, 4);
    same("output", BULITAMPAW_OUTPUT, 5);
    same("text", BULITAMPAW_TEXT, 6);
}

static void registers(void) {
    same("control", BULITAMPAW_CONTROL_AT, 0x000000);
    same("window entries", BULITAMPAW_WINDOW_ENTRIES_AT, 0x010000);
    same("colour map", BULITAMPAW_COLOUR_MAP_AT, 0x020000);
    same("gamma map", BULITAMPAW_GAMMA_MAP_AT, 0x030000);
    same("cursor glyph", BULITAMPAW_CURSOR_GLYPH_AT, 0x040000);
    same("cursor colours", BULITAMPAW_CURSOR_COLOURS_AT, 0x041000);
    same("words of window entries", BULITAMPAW_WINDOW_ENTRIES, 32);
    same("words of the colour map", BULITAMPAW_COLOUR_MAP_WORDS, 4608);
    same("words of the gamma map", BULITAMPAW_GAMMA_MAP_WORDS, 256);
    same("words of the cursor glyph", BULITAMPAW_CURSOR_GLYPH_WORDS, 64);
    same("words of cursor colours", BULITAMPAW_CURSOR_COLOURS, 3);
    same("words of the store", BULITAMPAW_STORE_WORDS, 32 + 4608 + 256 + 64 + 3);
}

static void lengths(void) {
    same("control words", BULITAMPAW_CONTROL_WORDS, 9);
    same("slots of the queue", BULITAMPAW_QUEUE_SLOTS, 64);
    same("bytes of a table", BULITAMPAW_TABLE_BYTES, 65536);
    same("bytes of a normal row", BULITAMPAW_NORMAL_BYTES, 2048 * 4);
    same("bytes of an overlay row", BULITAMPAW_OVERLAY_BYTES, 2048);
    same("words of a line", BULITAMPAW_OUTPUT_WORDS, 2048);
    same("bytes of a text", BULITAMPAW_TEXT_BYTES, 32 + 7 * 2048);
    same("bytes of a record", BULITAMPAW_RECORD_BYTES, 1 + 2 + 65535);
}

static void statuses(void) {
    same("refused", BULITAMPAW_STATUS_REFUSED, 0);
    same("listed", BULITAMPAW_STATUS_LISTED, 1);
    same("end", BULITAMPAW_STATUS_END, 2);
    same("more", BULITAMPAW_STATUS_MORE, 3);
    same("stopped", BULITAMPAW_STATUS_STOPPED, 4);
}

/* 9 control words, the position, how many wait, and 64 pairs; counts of bytes have 8 bytes each. */
static void layouts(void) {
    same("a state", sizeof(bulitampaw_state), 4 * (9 + 2 + 1 + 2 * 64));
    same("its position", offsetof(bulitampaw_state, at), 4 * 9);
    same("its queue", offsetof(bulitampaw_state, queue), 4 * 11);
    same("a refusal of a write", offsetof(bulitampaw_written, refusal), 560);
    same("a word read", offsetof(bulitampaw_read_back, word), 568);
    same("signals of dots", offsetof(bulitampaw_dotted, signals), 568);
    same("their blank", sizeof(bulitampaw_dotted), 568 + 4 * 4);
    same("a drawn line", sizeof(bulitampaw_drawn), 568);
    same("a session's table", offsetof(bulitampaw_session, table), 560);
    same("its records", offsetof(bulitampaw_session, records), 560 + 3 * 8);
    same("a session", sizeof(bulitampaw_session), 592);
    same("a step's next place", offsetof(bulitampaw_stepped, next), 592);
    same("its text", offsetof(bulitampaw_stepped, text), 600);
    same("its refusal", offsetof(bulitampaw_stepped, refusal), 608);
    same("what it comes to", offsetof(bulitampaw_stepped, status), 616);
    same("a position", sizeof(bulitampaw_position), 2 * 4);
    same("a waiting write", sizeof(bulitampaw_waiting), 2 * 4);
    same("a queue", sizeof(bulitampaw_queue), 4 + 64 * 8);
    same("a refusal", sizeof(bulitampaw_refusal), 2 * 4);
    same("signals", sizeof(bulitampaw_signals), 4 * 4);
    same("a write's answer", sizeof(bulitampaw_written), 560 + 8);
    same("a read's answer", sizeof(bulitampaw_read_back), 560 + 8 + 4);
    same("a step's answer", sizeof(bulitampaw_stepped), 592 + 8 + 8 + 8 + 4 + 4);
}

/* The names of the numbers from 0 on, of which the last is that of every other number too. */
static void named(const char *what, const char *(*name)(uint32_t), const char *const *names, uint32_t count) {
    static const uint32_t others[] = {0x100, 0x10000, 0x7FFFFFFF, 0x80000000u, 0xFFFFFFFFu};
    for (uint32_t number = 0; number < count; number++)
        same(what, strcmp(name(number), names[number]) != 0, 0);
    for (size_t other = 0; other < sizeof others / sizeof *others; other++)
        same(what, strcmp(name(others[other]), names[count - 1]) != 0, 0);
}

static void names(void) {
    static const char *const of_refusals[] = {"done", "no register at the address", "a word that can only be read", "bits that are not kept",
        "the queue is full", "a wrong length", "no such line", "no frame entry serves the line", "no line entry serves a pixel",
        "an undefined window entry", "the picture passes the total", "a bad state", "a wrong record", "the file ends too soon", "too much in the file",
        "not a refusal number"};
    static const char *const of_statuses[] = {"refused", "listed", "the end", "more bytes are needed", "stopped by a fault of the file", "not a status"};
    named("a refusal's name", bulitampaw_refusal_name, of_refusals, 16);
    named("a status's name", bulitampaw_status_name, of_statuses, 6);
}

/* A word of two fields is taken by every control word that has two; a field that is too wide is refused. */
static void two_fields(void) {
    static uint32_t store[BULITAMPAW_STORE_WORDS];
    bulitampaw_state state = bulitampaw_fresh();
    same("no fields", bulitampaw_two_fields(0, 0), 0);
    same("two fields", bulitampaw_two_fields(0x123, 0xABC), 0x0ABC0123);
    same("the widest", bulitampaw_two_fields(0xFFFF, 0xFFFF), 0xFFFFFFFFu);
    for (uint32_t word = 1; word <= 8; word++) {
        const uint32_t widest = word == 7 ? 0x7FF : 0xFFF, address = BULITAMPAW_CONTROL_AT + 4 * word;
        const bulitampaw_state *const unchanged = &state;
        uint32_t read = 0;
        same("fields that fit", bulitampaw_state_write(&state, store, address, bulitampaw_two_fields(widest, widest)).number, BULITAMPAW_DONE);
        same("a low field too wide", bulitampaw_state_write(&state, store, address, bulitampaw_two_fields(widest + 1, 0)).number, BULITAMPAW_STRAY_BITS);
        same("a high field too wide", bulitampaw_state_write(&state, store, address, bulitampaw_two_fields(0, widest + 1)).number, BULITAMPAW_STRAY_BITS);
        same("a control word", bulitampaw_state_read(unchanged, store, address, &read).number, BULITAMPAW_DONE);
        same("its fields", read, widest << 16 | widest);
    }
}

/* A session is begun in rooms that hold anything, and begun anew where another has run: only the store becomes zero. */
static void begin(void) {
    static const uint8_t old = 0xEE, gamma_and_row[] = {1, 0, 8, 0, 3, 0, 0, 0, 0, 0, 7, 4, 0, 2, 1, 2};
    static bulitampaw_rooms rooms, wanted;
    bulitampaw_session session;
    size_t place = 0;
    memset(&session, old, sizeof session);
    memset(&rooms, old, sizeof rooms);
    memset(&wanted, old, sizeof wanted);
    memset(wanted.store, 0, sizeof wanted.store);
    bulitampaw_session_begin(&session, &rooms);
    same("the rooms at first", memcmp(&rooms, &wanted, sizeof rooms) != 0, 0);
    same("a write", bulitampaw_session_step(&session, &rooms, gamma_and_row, sizeof gamma_and_row, &place, 0).status, BULITAMPAW_STATUS_LISTED);
    same("a row", bulitampaw_session_step(&session, &rooms, gamma_and_row, sizeof gamma_and_row, &place, 0).status, BULITAMPAW_STATUS_LISTED);
    same("a word of the store", rooms.store[32 + 4608], 7);
    same("the row that is held", session.normal, 2);
    bulitampaw_session_begin(&session, &rooms);
    same("that word then", rooms.store[32 + 4608], 0);
    same("what is held of table and rows", session.table + session.normal + session.overlay, 0);
    same("the records before the first", session.records, 0);
    same("the row's room", rooms.normal[0], 1);
    for (size_t word = 0; word < BULITAMPAW_CONTROL_WORDS; word++)
        same("a control word at first", session.state.control[word], 0);
    same("the beam at first", session.state.at.x + session.state.at.y, 0);
    same("what waits at first", session.state.queue.waiting, 0);
}

int main(void) {
    version();
    refusals();
    places();
    registers();
    lengths();
    statuses();
    layouts();
    names();
    two_fields();
    begin();
    return finished("header");
}
