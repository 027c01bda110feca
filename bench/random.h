/* Numbers at random, the same from the same state, which may not be 0. */
#ifndef RANDOM_H
#define RANDOM_H

#include <stdbool.h>
#include <stddef.h>
#include <stdint.h>

uint64_t random_bits(uint64_t *state);

/* From 0 to count - 1. */
size_t random_below(uint64_t *state, size_t count);

/* From least to most. */
int random_between(uint64_t *state, int least, int most);

bool random_chance(uint64_t *state, unsigned percent);

#endif
