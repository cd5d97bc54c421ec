/* Sessions as an emulator steps through them, against listings worked out from the paper by hand. */
#include <string.h>

#include "caller.h"

/* What no step leaves in the text. */
#define OLD 0xEE

/* The paper's whole case. */
static const uint8_t whole_case[] = {
    1, 0, 8, 0x00, 0x02, 0x00, 0x14, 0x00, 0x10, 0x20, 0x30, 1, 0, 8, 0x00, 0x00, 0x00, 0x10, 0x00, 0x01, 0x00, 0x00,
    1, 0, 8, 0x00, 0x01, 0x00, 0x00, 0x00, 0x00, 0x02, 0x00, 2, 0, 4, 0x00, 0x00, 0x00, 0x01, 4, 0, 2, 0x00, 0x05,
    6, 0, 2, 0x00, 0x00, 6, 0, 2, 0x00, 0x01, 0, 0, 0};

/* What each of its steps comes to: its record's end, its text, and number and place. */
static const struct {
    uint32_t status;
    size_t next;
    const char *text;
    uint32_t number, place;
} wanted[] = {
    {BULITAMPAW_STATUS_LISTED, 11, "ok\n", 0, 0}, {BULITAMPAW_STATUS_LISTED, 22, "ok\n", 0, 0},
    {BULITAMPAW_STATUS_LISTED, 33, "ok\n", 0, 0}, {BULITAMPAW_STATUS_LISTED, 40, "at 0 0\n", 0, 0},
    {BULITAMPAW_STATUS_LISTED, 45, "ok\n", 0, 0}, {BULITAMPAW_STATUS_LISTED, 50, "line 0\n102030\n", 0, 0},
    {BULITAMPAW_STATUS_LISTED, 55, "refused 6 1\n", 6, 1}, {BULITAMPAW_STATUS_END, 58, "", 0, 0}};

enum { STEPS = sizeof wanted / sizeof *wanted };

static bulitampaw_session session;
static bulitampaw_rooms rooms, before;
static size_t lengths[6];

/* A fresh session with a store of zeros, and rooms of the right lengths that hold something. */
static void begin(void) {
    session = bulitampaw_fresh_session();
    memset(&rooms, OLD, sizeof rooms);
    memset(rooms.store, 0, sizeof rooms.store);
    lengths[0] = BULITAMPAW_STORE_WORDS, lengths[1] = BULITAMPAW_TABLE_BYTES, lengths[2] = BULITAMPAW_NORMAL_BYTES;
    lengths[3] = BULITAMPAW_OVERLAY_BYTES, lengths[4] = BULITAMPAW_OUTPUT_WORDS, lengths[5] = BULITAMPAW_TEXT_BYTES;
}

/* A step on the rooms by their lengths; a room of none is lent as a null pointer. */
static bulitampaw_stepped step(const uint8_t *bytes, size_t length, size_t place, uint32_t last) {
    memcpy(&before, &rooms, sizeof rooms);
    return bulitampaw_step(session, bytes, length, place, last, lengths[0] ? rooms.store : NULL, lengths[0],
        lengths[1] ? rooms.table : NULL, lengths[1], lengths[2] ? rooms.normal : NULL, lengths[2],
        lengths[3] ? rooms.overlay : NULL, lengths[3], lengths[4] ? rooms.output : NULL, lengths[4],
        lengths[5] ? rooms.text : NULL, lengths[5]);
}

/* The text is this one, and the byte past it stays. */
static void text_is(const char *what, size_t length, const char *text) {
    same(what, length, strlen(text));
    same(what, memcmp(rooms.text, text, strlen(text)) != 0, 0);
    same(what, rooms.text[strlen(text)], OLD);
}

/* A step that does nothing: it comes to this, and session, place and rooms stay. */
static void nothing(const char *what, bulitampaw_stepped stepped, uint32_t status, uint32_t number, uint32_t place, size_t next) {
    same(what, stepped.status, status);
    same(what, stepped.refusal.number, number);
    same(what, stepped.refusal.place, place);
    same(what, stepped.next, next);
    same(what, stepped.text, 0);
    same(what, stepped.session.records, session.records);
    same(what, stepped.session.table, session.table);
    same(what, memcmp(&stepped.session.state, &session.state, sizeof session.state) != 0, 0);
    same(what, memcmp(&rooms, &before, sizeof rooms) != 0, 0);
}

/* A fault of the file: its line is the text, and all else stays. */
static void stops(const char *what, bulitampaw_stepped stepped, uint32_t number, const char *text) {
    text_is(what, stepped.text, text);
    memset(rooms.text, OLD, stepped.text);
    stepped.text = 0;
    nothing(what, stepped, BULITAMPAW_STATUS_STOPPED, number, session.records, stepped.next);
}

/* The whole case in one piece. */
static void whole(void) {
    size_t place = 0;
    begin();
    for (size_t number = 0; number < STEPS; number++) {
        const bulitampaw_stepped stepped = step(whole_case, sizeof whole_case, place, 1);
        same("the whole case", stepped.status, wanted[number].status);
        same("its places", stepped.next, wanted[number].next);
        same("its numbers", stepped.refusal.number, wanted[number].number);
        same("the places of its refusals", stepped.refusal.place, wanted[number].place);
        same("its records", stepped.session.records, number < STEPS - 1 ? number + 1 : number);
        text_is("its texts", stepped.text, wanted[number].text);
        memset(rooms.text, OLD, stepped.text);
        session = stepped.session;
        place = stepped.next;
    }
    same("the row that it holds", session.normal, 2);
    same("the output", rooms.output[0], 0x102030);
    same("the word past it", rooms.output[1], 0xEEEEEEEEu);
    same("the byte past the row", rooms.normal[2], OLD);
    nothing("after its end", step(whole_case, sizeof whole_case, place, 0), BULITAMPAW_STATUS_MORE, 0, 0, place);
}

/* The whole case by the wrapper, byte by byte. */
static void byte_by_byte(void) {
    size_t place = 0, number = 0;
    begin();
    for (size_t length = 0; length <= sizeof whole_case && number < STEPS; length++) {
        const bulitampaw_step_result result = bulitampaw_session_step(&session, &rooms, whole_case, length, &place, 0);
        if (length < wanted[number].next) {
            same("a beginning", result.status, BULITAMPAW_STATUS_MORE);
            same("its text", result.text, 0);
            same("its place", place, number == 0 ? 0 : wanted[number - 1].next);
        } else {
            same("a record by pointer", result.status, wanted[number].status);
            same("its number", result.refusal.number, wanted[number].number);
            same("its refusal's place", result.refusal.place, wanted[number].place);
            same("the next place", place, wanted[number].next);
            text_is("a text by pointer", result.text, wanted[number].text);
            memset(rooms.text, OLD, result.text);
            number++;
        }
    }
    same("all records came", number, STEPS);
    same("the records that stood before the end", session.records, STEPS - 1);
}

/* Each room of a wrong length, the lowest place first, and before them what the session holds. */
static void wrong_lengths(void) {
    begin();
    for (size_t room = 0; room < 6; room++) {
        const size_t right = lengths[room];
        lengths[room] = 0;
        nothing("no room", step(whole_case, sizeof whole_case, 0, 1), BULITAMPAW_STATUS_REFUSED, 5, (uint32_t)room + 1, 0);
        lengths[room] = right - 1;
        nothing("a short room", step(whole_case, sizeof whole_case, 0, 1), BULITAMPAW_STATUS_REFUSED, 5, (uint32_t)room + 1, 0);
        lengths[room] = right;
    }
    memset(lengths, 0, sizeof lengths);
    nothing("no room at all", step(NULL, 0, 9, 1), BULITAMPAW_STATUS_REFUSED, 5, BULITAMPAW_STORE, 9);
    session.table = BULITAMPAW_TABLE_BYTES + 1;
    nothing("a table that is too long", step(NULL, 0, 9, 1), BULITAMPAW_STATUS_REFUSED, 11, 0, 9);
    session.table = 0, session.normal = BULITAMPAW_NORMAL_BYTES + 1;
    nothing("a normal row that is too long", step(NULL, 0, 9, 0), BULITAMPAW_STATUS_REFUSED, 11, 0, 9);
    session.normal = 0, session.overlay = BULITAMPAW_OVERLAY_BYTES + 1;
    nothing("an overlay row that is too long", step(NULL, 0, 9, 0), BULITAMPAW_STATUS_REFUSED, 11, 0, 9);
}

/* The faults of a file, and records whose bytes aren't all there. */
static void faults(void) {
    static const uint8_t unknown[] = {7}, table[] = {3, 0, 2, 0xAB, 0xCD}, dots[] = {2, 0, 4, 1, 0, 0, 1}, line[] = {6, 0, 3};
    begin();
    nothing("no bytes yet", step(NULL, 0, 0, 0), BULITAMPAW_STATUS_MORE, 0, 0, 0);
    stops("no bytes", step(NULL, 0, 0, 1), BULITAMPAW_FILE_ENDS, "refused 13 0\n");
    stops("a place past the end", step(whole_case, sizeof whole_case, SIZE_MAX, 1), BULITAMPAW_FILE_ENDS, "refused 13 0\n");
    stops("an unknown tag", step(unknown, sizeof unknown, 0, 0), BULITAMPAW_WRONG_RECORD, "refused 12 0\n");
    stops("a wrong length", step(line, sizeof line, 0, 0), BULITAMPAW_WRONG_RECORD, "refused 12 0\n");
    nothing("half a length", step(line, 2, 0, 0), BULITAMPAW_STATUS_MORE, 0, 0, 0);
    stops("too many dots", step(dots, sizeof dots, 0, 0), BULITAMPAW_WRONG_RECORD, "refused 12 0\n");
    session.records = 1000000;
    stops("record 1,000,000", step(table, sizeof table, 0, 0), BULITAMPAW_TOO_MUCH, "refused 14 1000000\n");
    session.records = 7;
    session.table = BULITAMPAW_TABLE_BYTES - 1;
    stops("two bytes more than a table has", step(table, 3, 0, 0xFFFFFFFFu), BULITAMPAW_TOO_MUCH, "refused 14 7\n");
    session.table = BULITAMPAW_TABLE_BYTES - 2;
    const bulitampaw_stepped full = step(table, sizeof table, 0, 0);
    text_is("the last two bytes of a table", full.text, "ok\n");
    same("how many there are then", full.session.table, BULITAMPAW_TABLE_BYTES);
    same("the first of the two", rooms.table[BULITAMPAW_TABLE_BYTES - 2], 0xAB);
    same("the last of them", rooms.table[BULITAMPAW_TABLE_BYTES - 1], 0xCD);
    same("the byte before them", rooms.table[BULITAMPAW_TABLE_BYTES - 3], OLD);
}

/* A state against its rule is told of by the records that ask the chip, and by no other. */
static void bad_state(void) {
    begin();
    session.state.control[0] = 0x20;
    bulitampaw_stepped stepped = step(whole_case, sizeof whole_case, 45, 1);
    same("a line of a bad state", stepped.refusal.number, BULITAMPAW_BAD_STATE);
    same("its record counts", stepped.session.records, 1);
    text_is("its text", stepped.text, "refused 11 0\n");
    memset(rooms.text, OLD, stepped.text);
    stepped = step(whole_case, sizeof whole_case, 40, 1);
    text_is("a row of a bad state", stepped.text, "ok\n");
}

int main(void) {
    whole();
    byte_by_byte();
    wrong_lengths();
    faults();
    bad_state();
    return finished("step");
}
