/* Foreign input to the calls on the chip and on lines, and to the questions. */
#include "lent.h"
#include "numbers.h"
#include "round.h"
#include "states.h"

/* Whether one of some numbers is given. */
static int among(uint32_t number, const char *numbers) {
    while (*numbers != '\0' && (uint32_t)(*numbers - 'a') != number)
        numbers++;
    return *numbers != '\0';
}

void round_of_questions(void) {
    calling(ENTRY_DEFINED);
    const uint32_t defined = bulitampaw_entry_defined(any(), one_in(2) ? any() : 16u << below(2));
    answered(0);
    calling(SIGNAL_HOLDS);
    const uint32_t signal = bulitampaw_signal_holds(any(), any(), any());
    answered(0);
    holds(defined <= 1 && signal <= 1, "an answer that is neither 0 nor 1");
}

/* So many words of a store, mostly the right number. */
static size_t lend_store(void) {
    static const size_t wrong[] = {0, 1, BULITAMPAW_STORE_WORDS - 1, BULITAMPAW_STORE_WORDS + 1};
    const size_t words = !one_in(8) ? BULITAMPAW_STORE_WORDS : one_in(2) ? below(6000) : wrong[below(4)];
    lend(STORE, 4 * words);
    return words;
}

/* An address, mostly of a register. */
static uint32_t any_address(void) {
    static const uint32_t blocks[] = {0, 0x010000, 0x020000, 0x030000, 0x040000, 0x041000}, words[] = {11, 32, 4608, 256, 64, 3};
    const size_t block = below(6);
    const uint32_t near = blocks[block] + 4 * (uint32_t)below(words[block] + 1u);
    return one_in(8) ? any() : near | (one_in(4) ? any() & 0xFF000003u : 0);
}

/* A refused call hands the state back and leaves the store. */
static void refused_or_done(uint32_t number, const char *numbers, const bulitampaw_state *before, const bulitampaw_state *after) {
    holds(among(number, numbers), "a number that the call doesn't have");
    holds(lent_stays(STORE, number == 0 ? lent_bytes(STORE) : 0), "a refused call changed the store, or what stands around it");
    holds(number == 0 || same_state(before, after), "a refused call changed the state");
}

static void one_write(bulitampaw_state *state, size_t words) {
    calling(WRITE);
    const bulitampaw_written written =
        bulitampaw_write(*state, (uint32_t *)lent_at(STORE), words, any_address(), any() >> below(32));
    answered(written.refusal.number);
    refused_or_done(written.refusal.number, "abcdefl", state, &written.state);
    *state = written.state;
}

static void one_read(bulitampaw_state *state, size_t words) {
    lent_read_only(STORE, 1);
    calling(READ);
    const bulitampaw_read_back read = bulitampaw_read(*state, (uint32_t *)lent_at(STORE), words, any_address());
    answered(read.refusal.number);
    lent_read_only(STORE, 0);
    refused_or_done(read.refusal.number, "abfl", state, &read.state);
    holds(lent_stays(STORE, 0) && same_state(state, &read.state), "a read changed something");
    holds(read.refusal.number == 0 || read.word == 0, "a refused read answers a word");
}

/* The longest run of dots while something waits. */
enum { LONGEST = 1 << 20 };

static void some_dots(bulitampaw_state *state, size_t words) {
    const int one = one_in(2);
    const uint32_t most = any() >> below(32), count = state->queue.waiting == 0 || most < LONGEST ? most : LONGEST;
    calling(one ? DOT : DOTS);
    const bulitampaw_dotted dotted = one ? bulitampaw_dot(*state, (uint32_t *)lent_at(STORE), words)
                                         : bulitampaw_dots(*state, (uint32_t *)lent_at(STORE), words, count);
    answered(dotted.refusal.number);
    refused_or_done(dotted.refusal.number, "afl", state, &dotted.state);
    holds(dotted.signals.reported == (dotted.refusal.number == 0 && (one || count > 0)), "a report of no dot, or none of one");
    holds((dotted.signals.hsync | dotted.signals.vsync | dotted.signals.blank) <= dotted.signals.reported, "a signal that is neither 0 nor 1");
    *state = dotted.state;
}

void round_of_chip_calls(void) {
    static void (*const kinds[])(bulitampaw_state *, size_t) = {one_write, one_read, some_dots};
    bulitampaw_state state = any_state();
    const size_t words = lend_store();
    for (size_t left = 1 + below(12); left > 0; left--) {
        lent_remember(STORE);
        kinds[below(3)](&state, words);
    }
}

/* A length that is right, near it, none or any. */
static size_t length_about(size_t right, size_t most) {
    switch (below(16)) {
    case 0: return 0;
    case 1: return right + 1;
    case 2: return right > 0 ? right - 1 : 0;
    case 3: return below(most);
    default: return right;
    }
}

/* A table that mostly leads somewhere. */
static size_t lend_table(void) {
    const size_t length = one_in(16) ? length_about(BULITAMPAW_TABLE_BYTES, 90000) : below(2000);
    uint8_t *table = (uint8_t *)lend(TABLE, length);
    if (length > 520 && one_in(2)) {
        table[0] = 0x07, table[1] = 0xFF, table[2] = (uint8_t)below(length / 512), table[3] = (uint8_t)below(8);
    }
    return length;
}

void round_of_lines(void) {
    const bulitampaw_state state = any_state();
    const size_t width = (state.control[7] & 0x7FF) + 1, words = lend_store(), table = lend_table();
    const size_t normal = length_about(width * (state.control[0] & 16 ? 4 : 2), 9000), overlay = length_about(width, 3000);
    const size_t output = length_about(width + (one_in(2) ? below(9) : 0), 3000);
    uint32_t *store = (uint32_t *)lent_at(STORE);
    for (size_t id = 0; id < 32 && words >= 32; id++)
        store[id] &= one_in(16) ? UINT32_MAX : 0xFFFFE000u | 0x611 | (uint32_t)below(6) << 1;
    lend(NORMAL, normal), lend(OVERLAY, overlay), lend(OUTPUT, 4 * output);
    for (part each = STORE; each <= OUTPUT; each = (part)(each + 1)) {
        lent_remember(each);
        lent_read_only(each, each != OUTPUT);
    }
    const uint32_t height = (state.control[7] >> 16 & 0x7FF) + 1;
    calling(LINE);
    const bulitampaw_drawn drawn = bulitampaw_line(state, one_in(8) ? around(height) : (uint32_t)below(height), store, words,
        (uint8_t *)lent_at(TABLE), table, (uint8_t *)lent_at(NORMAL), normal, (uint8_t *)lent_at(OVERLAY), overlay,
        (uint32_t *)lent_at(OUTPUT), output);
    answered(drawn.refusal.number);
    holds(among(drawn.refusal.number, "afghijkl"), "a number that a line doesn't have");
    holds(same_state(&state, &drawn.state), "a line changed the state");
    for (part each = STORE; each < OUTPUT; each = (part)(each + 1)) {
        lent_read_only(each, 0);
        holds(lent_stays(each, 0), "a line changed what it is lent to read");
    }
    holds(lent_stays(OUTPUT, drawn.refusal.number == 0 ? 4 * width : 0), "a line changed words past the width, or is refused and drawn");
}
