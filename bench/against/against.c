/*
 * Times two archives by turns, batch by batch, in one process: the library,
 * and another, whose calls are linked under names of their own. Prints a line
 * for each code: numbers, what was called, code, nanoseconds a call of either.
 *
 * usage: against ROUNDS
 */
#include <stdio.h>
#include <stdlib.h>

#include "../jobs.h"
#include "../values.h"

/* An archive from before the field `exact` returns less in the same two registers: only what it has too is read. */
extern show_number other_numfmt_show_number;
extern show_instant other_numfmt_show_instant;
numfmt_prepared other_numfmt_prepare(const uint16_t *code, size_t code_len, uint16_t *table, size_t table_len);

/* What is compared of a code: showing in either room, and preparing. */
enum { CALLED = 3, COMPARED = CALLED * SPECIMENS };

static const size_t begins[CALLED] = {LIBRARY, LIBRARY_SHORT, PREPARE};
static const char *const called[CALLED] = {"show", "show in 64", "prepare"};

/* The library's job and the other's, side by side. */
static job pairs[2 * COMPARED];

static uint64_t batch_of_other_codes(const job *one)
{
    static uint16_t table[NUMFMT_TABLE_WORDS];
    uint64_t sum = 0;
    size_t at;

    for (at = 0; at < CALLS; at++)
        sum += other_numfmt_prepare(one->units, one->count, table, NUMFMT_TABLE_WORDS).words + table[0];
    return sum;
}

static job other_job(job one)
{
    if (one.number == NULL)
        one.batch = batch_of_other_codes;
    one.number = other_numfmt_show_number;
    one.instant = other_numfmt_show_instant;
    return one;
}

static void compare(number_sort sort, const char *numbers, unsigned rounds)
{
    size_t at;

    make_values(sort);
    for (at = 0; at < COMPARED; at++) {
        pairs[2 * at] = jobs[begins[at / SPECIMENS] + at % SPECIMENS];
        pairs[2 * at + 1] = other_job(pairs[2 * at]);
    }
    measure(pairs, 2 * COMPARED, rounds);
    for (at = 0; at < COMPARED; at++)
        printf("%s\t%s\t%s\t%.2f\t%.2f\n", numbers, called[at / SPECIMENS], specimens[at % SPECIMENS].code, pairs[2 * at].best,
               pairs[2 * at + 1].best);
}

int main(int count, char **arguments)
{
    unsigned rounds = count == 2 ? (unsigned)strtoul(arguments[1], NULL, 10) : 0;

    if (rounds == 0) {
        fprintf(stderr, "usage: against ROUNDS\n");
        return 2;
    }
    make_jobs();
    compare(AMOUNTS, "amounts", rounds);
    compare(MIXED, "mixed", rounds);
    return 0;
}
