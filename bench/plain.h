/*
 * The eight codes of the benchmark, each written out by hand: what the table is
 * compared with. Each writes its text to the room, or nothing and length 0
 * where the room is too short. Numbers are coefficient / 10^scale within the
 * library's range, days and milliseconds too: nothing else is checked.
 */
#ifndef PLAIN_H
#define PLAIN_H

#include <stddef.h>
#include <stdint.h>

#include "numfmt.h"

typedef struct {
    size_t length;
    uint16_t colour;
} plain_text;

typedef plain_text plain_number(int64_t coefficient, uint32_t scale, uint16_t *room, size_t room_len);
typedef plain_text plain_instant(uint32_t day, uint32_t millisecond, uint16_t *room, size_t room_len);

plain_number plain_grouped;    /* #,##0 */
plain_number plain_fixed;      /* 0.00 */
plain_number plain_accounting; /* #,##0.00;[Red](#,##0.00) */
plain_number plain_general;    /* General, below 10^11 */
plain_number plain_scientific; /* 0.00E+00 */
plain_number plain_fraction;   /* # ???/??? */
plain_instant plain_date;      /* d-mmm-yy */
plain_instant plain_clock;     /* h:mm:ss AM/PM */

/* A board taken and handed back by value, and nothing done with it: what passing it costs. */
numfmt_put plain_handed(numfmt_board board, uint32_t length);

#endif
