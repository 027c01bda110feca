/*
 * A walker of the library's tables in plain C, unproved: the anchor that the
 * library is measured against. It is written from the same paper, checks every
 * table rule in each call, and is to return and to leave in the room what the
 * library does. A caller owes what numfmt.h asks.
 */
#ifndef WALKER_H
#define WALKER_H

#include "numfmt.h"

/* The answers of showing. */
enum {
    ANSWER_DONE = 0,
    ANSWER_TABLE = 8,
    ANSWER_RANGE,
    ANSWER_NO_SECTION,
    ANSWER_SORT,
    ANSWER_GENERAL,
    ANSWER_ROOM
};

typedef numfmt_shown show_number(const uint16_t *table, size_t table_len, int64_t coefficient, uint32_t scale,
                                 uint16_t *room, size_t room_len);
typedef numfmt_shown show_instant(const uint16_t *table, size_t table_len, uint32_t day, uint32_t millisecond,
                                  uint16_t *room, size_t room_len);
typedef numfmt_shown show_text(const uint16_t *table, size_t table_len, const uint16_t *text, size_t text_len,
                               uint16_t *room, size_t room_len);

show_number walker_show_number;
show_instant walker_show_instant;
show_text walker_show_text;

#endif
