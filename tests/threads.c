/* Several threads at once, each with a chip and a session of its own, and lines drawn by all of them from one chip that none changes: each is answered as when
   it runs alone. */
#include <pthread.h>
#include <string.h>

#include "caller.h"

enum { THREADS = 4, TIMES = 3, ROUNDS = 200, TURNS = 10, WIDTH = 96 };

/* What one thread works on, and a sum over all that it was answered. */
typedef struct {
    uint32_t seed;
    bulitampaw_state state;
    uint32_t store[BULITAMPAW_STORE_WORDS], output[WIDTH];
    bulitampaw_session session;
    bulitampaw_rooms rooms;
    uint64_t sum;
} worker;

/* The chip that all draw from. */
static bulitampaw_state shared_state;
static uint32_t shared_store[BULITAMPAW_STORE_WORDS];
static uint8_t shared_row[2 * WIDTH];

static uint32_t next_number(worker *w) {
    w->seed ^= w->seed << 13;
    w->seed ^= w->seed >> 17;
    w->seed ^= w->seed << 5;
    return w->seed;
}

static void add(worker *w, const void *words, size_t bytes) {
    const uint8_t *at = (const uint8_t *)words;
    for (size_t i = 0; i < bytes; i++)
        w->sum = (w->sum ^ at[i]) * 0x100000001B3u;
}

static void add_refusal(worker *w, bulitampaw_refusal refusal) {
    add(w, &refusal, sizeof refusal);
}

/* A write to some register, a read of it, and some dots. */
static void calls(worker *w) {
    static const uint32_t blocks[] = {BULITAMPAW_WINDOW_ENTRIES_AT, BULITAMPAW_COLOUR_MAP_AT, BULITAMPAW_COLOUR_MAP_AT, BULITAMPAW_GAMMA_MAP_AT,
        BULITAMPAW_CURSOR_GLYPH_AT, BULITAMPAW_CURSOR_COLOURS_AT};
    const uint32_t address = blocks[next_number(w) % 6] + next_number(w) % 300;
    bulitampaw_signals signals;
    uint32_t word;
    add_refusal(w, bulitampaw_state_write(&w->state, w->store, address & ~1u, next_number(w) & 0xFFFFFF));
    add_refusal(w, bulitampaw_state_read(&w->state, w->store, address & ~1u, &word));
    add(w, &word, sizeof word);
    add_refusal(w, bulitampaw_state_dots(&w->state, w->store, next_number(w) % 3000, &signals));
    add(w, &signals, sizeof signals);
    add_refusal(w, bulitampaw_state_dot(&w->state, w->store, &signals));
    add(w, &signals, sizeof signals);
    add(w, &w->state, sizeof w->state);
}

/* A line of the thread's own chip or of the shared one. */
static void line(worker *w, const bulitampaw_state *state, const uint32_t *store, const uint8_t *row) {
    bulitampaw_planes planes = {NULL, NULL, NULL, 0, 0, 0};
    planes.normal = row;
    planes.normal_length = 2 * WIDTH;
    add_refusal(w, bulitampaw_state_line(state, next_number(w) % 65, store, &planes, w->output, WIDTH));
    add(w, w->output, sizeof w->output);
}

/* The mode that every chip here has: 96 by 64 pixels, blanked around them. */
static void set_mode(worker *w, bulitampaw_state *state, uint32_t *store) {
    const uint32_t words[] = {0, bulitampaw_two_fields(119, 79), bulitampaw_two_fields(0, 8), bulitampaw_two_fields(0, 2), bulitampaw_two_fields(112, 16),
        bulitampaw_two_fields(72, 8), bulitampaw_two_fields(16, 8), bulitampaw_two_fields(WIDTH - 1, 63)};
    for (uint32_t word = 0; word < sizeof words / sizeof *words; word++)
        add_refusal(w, bulitampaw_state_write(state, store, BULITAMPAW_CONTROL_AT + 4 * word, words[word]));
}

/* Puts a record with a body of any bytes, and answers its length. */
static size_t put_record(worker *w, uint8_t *at, uint8_t tag, uint8_t length) {
    at[0] = tag, at[1] = 0, at[2] = length;
    for (size_t i = 0; i < length; i++)
        at[3 + i] = (uint8_t)(next_number(w) >> 24);
    return 3 + (size_t)length;
}

/* Steps over a file of writes, dots, table bytes, rows and lines. */
static void steps(worker *w) {
    uint8_t bytes[TURNS * 36 + 3];
    size_t length = 0, place = 0;
    bulitampaw_step_result step;
    for (int turn = 0; turn < TURNS; turn++) {
        uint8_t *const write = bytes + length, *const dots = write + 11, *const table = dots + 7, *const row = table + 8, *const draw = row + 5;
        length += put_record(w, write, 1, 8) + put_record(w, dots, 2, 4) + put_record(w, table, 3, 5) + put_record(w, row, 4, 2) + put_record(w, draw, 6, 2);
        write[3] = 0, write[4] %= 5, write[5] %= 2, write[6] &= 0xFC, write[7] = 0; /* mostly a register, and 24 bits */
        dots[3] = dots[4] = 0;
        draw[3] = 0, draw[4] %= 2;
    }
    length += put_record(w, bytes + length, 0, 0);
    bulitampaw_session_begin(&w->session, &w->rooms);
    do {
        step = bulitampaw_session_step(&w->session, &w->rooms, bytes, length, &place, 1);
        add(w, w->rooms.text, step.text);
        add_refusal(w, step.refusal);
    } while (step.status == BULITAMPAW_STATUS_LISTED);
    add(w, &step.status, sizeof step.status);
    add(w, &w->session.state, sizeof w->session.state);
    add(w, &place, sizeof place);
}

/* All that a thread does. */
static void *work(void *lent) {
    worker *const w = (worker *)lent;
    memset(w->store, 0, sizeof w->store);
    memset(w->output, 0, sizeof w->output);
    w->state = bulitampaw_fresh();
    w->sum = 0;
    set_mode(w, &w->state, w->store);
    for (int round = 0; round < ROUNDS; round++) {
        calls(w);
        line(w, &w->state, w->store, shared_row);
        line(w, &shared_state, shared_store, shared_row);
        steps(w);
    }
    return NULL;
}

int main(void) {
    static worker workers[THREADS];
    uint64_t alone[THREADS];
    shared_state = bulitampaw_fresh();
    set_mode(&workers[0], &shared_state, shared_store);
    for (uint32_t i = 0; i < sizeof shared_row; i++)
        shared_row[i] = (uint8_t)(i * 37);
    for (uint32_t word = 0; word < 512; word++)
        shared_store[BULITAMPAW_WINDOW_ENTRIES + word] = word * 0x10305;
    for (uint32_t i = 0; i < THREADS; i++) {
        workers[i].seed = 20010417 + i;
        work(&workers[i]);
        alone[i] = workers[i].sum;
        same("another thread's answers", i > 0 && alone[i] == alone[i - 1], 0);
    }
    for (int time = 0; time < TIMES; time++) {
        pthread_t threads[THREADS];
        for (uint32_t i = 0; i < THREADS; i++) {
            workers[i].seed = 20010417 + i;
            same("a thread starts", (uint64_t)pthread_create(&threads[i], NULL, work, &workers[i]), 0);
        }
        for (uint32_t i = 0; i < THREADS; i++) {
            same("a thread ends", (uint64_t)pthread_join(threads[i], NULL), 0);
            same("a thread's answers beside the others", workers[i].sum, alone[i]);
        }
    }
    return finished("threads");
}
