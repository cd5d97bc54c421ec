/* Foreign session files, stepped through in pieces. */
#include <stdio.h>
#include <stdlib.h>
#include <string.h>

#include "lent.h"
#include "numbers.h"
#include "round.h"
#include "states.h"

/* The files that are there, and the one that is stepped through. */
enum { FILES = 1024, LONGEST = 150000, STEPS = 300 };
static struct {
    uint8_t *bytes;
    size_t length;
} files[FILES];
static size_t known;
static uint8_t file[LONGEST];
static size_t length;

void take_file(const char *path) {
    FILE *from = fopen(path, "rb");
    uint8_t *bytes = (uint8_t *)malloc(LONGEST);
    if (from == NULL || bytes == NULL || known == FILES) {
        perror(path);
        exit(2);
    }
    files[known].length = fread(bytes, 1, LONGEST, from);
    files[known++].bytes = bytes;
    fclose(from);
}

/* Puts so many bytes for some others of the file, as far as there is room. */
static void splice(size_t at, size_t out, const uint8_t *in, size_t count) {
    if (at > length)
        at = length;
    if (out > length - at)
        out = length - at;
    if (length - out + count > LONGEST)
        return;
    memmove(file + at + count, file + at + out, length - at - out);
    if (count > 0)
        memcpy(file + at, in, count);
    length = length - out + count;
}

/* A record of any tag, whose length mostly fits. */
static void append_record(void) {
    static const size_t right[] = {0, 8, 4, 600, 4096, 1024, 2};
    uint8_t record[3 + 4200];
    const size_t tag = below(7), body = tag < 3 || tag == 6 ? right[tag] : below(right[tag]), said = one_in(32) ? any() : body;
    fill(record, 3 + body);
    record[0] = (uint8_t)tag, record[1] = (uint8_t)(said >> 8), record[2] = (uint8_t)said;
    if (tag == 1)
        record[3] = 0, record[4] = (uint8_t)below(5), record[5] &= 0x13, record[6] &= 0xFC, record[7] &= 15, record[9] &= 7;
    if (tag == 2)
        record[3] = 0, record[4] &= (uint8_t)below(256);
    splice(length, 0, record, 3 + body);
}

/* Changes the file in one place or another. */
static void mutate(void) {
    const size_t at = below(length + 1), run = one_in(2) ? 1 : below(40);
    uint8_t some[40];
    fill(some, sizeof some);
    if (run < length && one_in(2))
        memcpy(some, file + below(length - run), run);
    switch (below(7)) {
    case 0: splice(at, 1, some, 1); break;
    case 1: splice(at, run, some, run); break;
    case 2: splice(at, 0, some, run); break;
    case 3: splice(at, run, NULL, 0); break;
    case 4: length = at; break;
    case 5: append_record(); break;
    default:
        if (at < length)
            file[at] ^= (uint8_t)(1u << below(8));
        break;
    }
}

/* A file that is known with changes, records, or any bytes. */
static void draw_file(void) {
    length = 0;
    switch (below(8)) {
    case 0:
        length = below(300);
        fill(file, length);
        break;
    case 1:
    case 2:
        for (size_t left = below(60); left > 0; left--)
            append_record();
        break;
    default:
        if (known > 0) {
            const size_t number = below(known);
            splice(0, 0, files[number].bytes, files[number].length);
        }
        break;
    }
    for (size_t left = below(6); left > 0; left--)
        mutate();
}

/* The right number of elements of each room, and how many bytes each has. */
static const size_t right[] = {BULITAMPAW_STORE_WORDS, BULITAMPAW_TABLE_BYTES, BULITAMPAW_NORMAL_BYTES, BULITAMPAW_OVERLAY_BYTES,
    BULITAMPAW_OUTPUT_WORDS, BULITAMPAW_TEXT_BYTES};
static const size_t size[] = {4, 1, 1, 1, 4, 1};
static size_t lengths[6];

static void lend_rooms(int wrong) {
    for (size_t room = 0; room < 6; room++) {
        lengths[room] = right[room];
        if (wrong && one_in(4))
            lengths[room] = one_in(2) ? right[room] - 1 + below(3) : below(right[room]);
        lend((part)room, lengths[room] * size[room]);
    }
}

/* Whether the rooms are as they were, but for the front of the text. */
static int rooms_stay(size_t text) {
    int stay = lent_stays(TEXT, text);
    for (part room = STORE; room < TEXT; room = (part)(room + 1))
        stay = stay && lent_stays(room, 0);
    return stay;
}

/* What stands around the rooms stays whatever comes. */
static int around_rooms_stays(void) {
    int stay = 1;
    for (part room = STORE; room <= TEXT; room = (part)(room + 1))
        stay = stay && lent_stays(room, lent_bytes(room));
    return stay;
}

/* What holds of each step. */
static void judge(const bulitampaw_session *before, const bulitampaw_stepped *after, size_t place, size_t lent, int last) {
    const int acted = after->status == BULITAMPAW_STATUS_LISTED || after->status == BULITAMPAW_STATUS_END;
    holds(after->status <= BULITAMPAW_STATUS_STOPPED, "a step comes to nothing that there is");
    holds(after->refusal.number <= BULITAMPAW_TOO_MUCH, "a number that there isn't");
    holds(after->text <= lengths[5], "more text than there is room for");
    holds(acted ? after->next >= place + 3 && after->next <= lent : after->next == place, "a wrong next place");
    holds(after->status == BULITAMPAW_STATUS_LISTED || same_session(before, &after->session), "a session that changed");
    holds(after->status == BULITAMPAW_STATUS_LISTED || rooms_stay(after->text), "rooms that changed");
    holds(around_rooms_stays() && lent_stays(TEXT, after->text), "something changed past the text, or around the rooms");
    holds(after->status != BULITAMPAW_STATUS_MORE || !last, "more bytes wanted of a file that ends");
    holds((after->status == BULITAMPAW_STATUS_REFUSED) == (after->refusal.number == 5 || after->refusal.number == 11) || acted, "a wrong number");
    holds(after->text == 0 || ((uint8_t *)lent_at(TEXT))[after->text - 1] == '\n', "a text without its end");
}

void round_of_steps(void) {
    bulitampaw_session session = any_session();
    size_t place = 0, upto = 0;
    draw_file();
    lend_rooms(one_in(16));
    if (one_in(2))
        memset(lent_at(STORE), 0, lent_bytes(STORE));
    for (size_t left = STEPS; left > 0; left--) {
        const size_t from = one_in(2) ? place : 0, more = one_in(4) ? below(30) : length;
        upto = upto + more < length ? upto + more : length;
        const int last = upto == length && !one_in(8);
        const size_t strange = one_in(64) ? SIZE_MAX - below(9) : place - from;
        if (upto > from)
            memcpy(lend(BYTES, upto - from), file + from, upto - from);
        else
            lend(BYTES, 0);
        for (part each = STORE; each <= BYTES; each = (part)(each + 1))
            lent_remember(each);
        lent_read_only(BYTES, 1);
        calling(STEP);
        const bulitampaw_stepped stepped = bulitampaw_step(session, (uint8_t *)lent_at(BYTES), lent_bytes(BYTES), strange,
            last ? any() | 1 : 0, (uint32_t *)lent_at(STORE), lengths[0], (uint8_t *)lent_at(TABLE), lengths[1],
            (uint8_t *)lent_at(NORMAL), lengths[2], (uint8_t *)lent_at(OVERLAY), lengths[3],
            (uint32_t *)lent_at(OUTPUT), lengths[4], (uint8_t *)lent_at(TEXT), lengths[5]);
        answered(stepped.refusal.number);
        lent_read_only(BYTES, 0);
        holds(lent_stays(BYTES, 0), "a step changed the file");
        judge(&session, &stepped, strange, lent_bytes(BYTES), last);
        if (stepped.status == BULITAMPAW_STATUS_REFUSED || stepped.status == BULITAMPAW_STATUS_STOPPED)
            break;
        session = stepped.session;
        if (stepped.status != BULITAMPAW_STATUS_MORE)
            place = from + stepped.next;
        if (upto < place)
            upto = place;
    }
}
