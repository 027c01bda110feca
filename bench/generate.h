/* Tables and values at random, for comparing: sound and damaged tables, values in range, at its edges and out of it. */
#ifndef GENERATE_H
#define GENERATE_H

#include <stddef.h>
#include <stdint.h>

enum { WORDS_MOST = 1024, TEXT_UNITS = 1025 };

typedef struct {
    uint16_t words[WORDS_MOST];
    size_t count;
} random_table;

typedef struct {
    int64_t coefficient;
    uint32_t scale;
    uint32_t day, millisecond;
    uint16_t text[TEXT_UNITS];
    size_t text_len;
} random_value;

/* Prepared from a code or built with none, and often damaged then. */
void make_table(uint64_t *state, random_table *made);

void make_value(uint64_t *state, random_value *made);

#endif
