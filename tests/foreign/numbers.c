#include "numbers.h"

#include <string.h>

/* Bytes that memory is filled from. */
enum { NOISE = 1 << 18 };
static uint8_t noise[NOISE];
static uint64_t noise_seed, state;

static uint64_t next(void) {
    uint64_t mixed = state += 0x9E3779B97F4A7C15u;
    mixed = (mixed ^ mixed >> 30) * 0xBF58476D1CE4E5B9u;
    mixed = (mixed ^ mixed >> 27) * 0x94D049BB133111EBu;
    return mixed ^ mixed >> 31;
}

void numbers_begin(uint64_t seed, uint64_t round) {
    if (noise_seed != seed + 1) {
        state = noise_seed = seed + 1;
        for (size_t at = 0; at < NOISE; at++)
            noise[at] = (uint8_t)next();
    }
    state = seed;
    state = next() + round;
}

uint32_t any(void) {
    return (uint32_t)(next() >> 32);
}

size_t below(size_t bound) {
    return (size_t)(next() % bound);
}

int one_in(size_t times) {
    return below(times) == 0;
}

uint32_t around(uint32_t bound) {
    switch (below(5)) {
    case 0: return bound - 1;
    case 1: return bound;
    case 2: return bound + 1;
    case 3: return UINT32_MAX - (uint32_t)below(3);
    default: return any();
    }
}

void fill(void *bytes, size_t length) {
    uint8_t *to = (uint8_t *)bytes;
    while (length > 0) {
        const size_t from = below(NOISE), part = length < NOISE - from ? length : NOISE - from;
        memcpy(to, noise + from, part);
        to += part;
        length -= part;
    }
}
