#include "states.h"

#include <string.h>

#include "numbers.h"

/* The bits that control words 0 to 8 keep. */
static const uint32_t kept[BULITAMPAW_CONTROL_WORDS] = {0x1F, 0x0FFF0FFF, 0x0FFF0FFF, 0x0FFF0FFF, 0x0FFF0FFF, 0x0FFF0FFF,
    0x0FFF0FFF, 0x07FF07FF, 0x0FFF0FFF};

/* Two fields, mostly small. */
static uint32_t fields(void) {
    return one_in(3) ? any() : (uint32_t)below(9) | (uint32_t)below(9) << 16;
}

static bulitampaw_state good_state(void) {
    bulitampaw_state state;
    fill(&state, sizeof state);
    for (size_t word = 0; word < BULITAMPAW_CONTROL_WORDS; word++)
        state.control[word] = fields() & kept[word];
    if (one_in(2)) {
        state.control[1] = 0x0FFF0FFF;
        state.control[6] &= 0x07FF07FF;
        state.control[7] |= one_in(8) ? 0x7FF : 0;
    }
    state.at.x = (uint32_t)below(4096);
    state.at.y = (uint32_t)below(4096);
    state.queue.waiting = one_in(2) ? 0 : (uint32_t)below(65);
    for (size_t slot = 0; slot < state.queue.waiting; slot++) {
        state.queue.slots[slot].entry = (uint32_t)below(4608);
        state.queue.slots[slot].colour = any() & 0xFFFFFF;
    }
    return state;
}

static void damage(bulitampaw_state *state) {
    const size_t slot = below(BULITAMPAW_QUEUE_SLOTS);
    switch (below(6)) {
    case 0: state->control[below(BULITAMPAW_CONTROL_WORDS)] |= UINT32_C(1) << below(32); break;
    case 1: state->at.x = around(4096); break;
    case 2: state->at.y = around(4096); break;
    case 3: state->queue.waiting = around(65); break;
    case 4: state->queue.slots[slot].entry = around(4608); break;
    default: state->queue.slots[slot].colour = around(1 << 24); break;
    }
}

bulitampaw_state any_state(void) {
    bulitampaw_state state = good_state();
    switch (below(8)) {
    case 0: return bulitampaw_fresh();
    case 1: damage(&state); break;
    case 2: fill(&state, sizeof state); break;
    default: break;
    }
    return state;
}

/* Mostly as many as there is room for, or fewer. */
static size_t held(size_t room) {
    switch (below(8)) {
    case 0: return around((uint32_t)room);
    case 1: return SIZE_MAX - below(3);
    case 2: return room;
    default: return below(room + 1);
    }
}

bulitampaw_session any_session(void) {
    bulitampaw_session session = bulitampaw_fresh_session();
    if (!one_in(4)) {
        session.state = any_state();
        session.table = held(BULITAMPAW_TABLE_BYTES);
        session.normal = held(BULITAMPAW_NORMAL_BYTES);
        session.overlay = held(BULITAMPAW_OVERLAY_BYTES);
        session.records = one_in(2) ? 0 : around(1000000);
    }
    return session;
}

int same_state(const bulitampaw_state *one, const bulitampaw_state *other) {
    return memcmp(one, other, sizeof *one) == 0;
}

int same_session(const bulitampaw_session *one, const bulitampaw_session *other) {
    return same_state(&one->state, &other->state) && one->table == other->table && one->normal == other->normal
        && one->overlay == other->overlay && one->records == other->records;
}
