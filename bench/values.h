/* The values that every batch goes through: the same in every run. */
#ifndef VALUES_H
#define VALUES_H

#include <stdint.h>

#include "measure.h"

extern int64_t coefficients[CALLS];
extern uint32_t scales[CALLS];
extern double doubles[CALLS]; /* the same numbers */
extern uint32_t days[CALLS], milliseconds[CALLS];

/* Of either sign: of the size and the decimals of a sum of money, or of any size and number of decimals. */
typedef enum { AMOUNTS, MIXED } number_sort;

void make_values(number_sort sort);

#endif
