/* Numbers that look random, from a seed and the number of a round, so that each round can be had again by itself. */
#ifndef NUMBERS_H
#define NUMBERS_H

#include <stddef.h>
#include <stdint.h>

/* Starts a round. */
void numbers_begin(uint64_t seed, uint64_t round);

/* The next 32 bits. */
uint32_t any(void);

/* A number below a bound above 0. */
size_t below(size_t bound);

/* True once in so many times. */
int one_in(size_t times);

/* A number at a bound, near it or far from it. */
uint32_t around(uint32_t bound);

/* Any bytes. */
void fill(void *bytes, size_t length);

#endif
