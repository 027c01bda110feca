/*
 * The words of a table, and the check of them. Word 0 is the count of sections,
 * then 12 words a section (its head), then two words an item, section by section.
 */
#ifndef TABLE_H
#define TABLE_H

#include <stdbool.h>
#include <stddef.h>
#include <stdint.h>

enum { SECTIONS_MOST = 4, HEAD_WORDS = 12, ITEM_WORDS = 2, ITEMS_MOST = 254 };

/* The words of a head. A condition's numbers take two words, the low one first. */
enum { KIND, COLOUR, OPERATOR, NEGATIVE, WHOLE, MILLIONTHS = 6, SHIFT = 8, FLAGS, DECIMALS, ITEMS };

enum { LITERAL_KIND, GENERAL_KIND, NUMBER_KIND, TEXT_KIND, DATE_KIND };

enum { GROUPING = 1, NO_MINUS = 2, TWELVE_HOUR = 4 };

/* The first word of an item. The second is a unit, a power and 16, a run's length, a half-day's form, or 0. */
enum {
    LITERAL = 1,
    BLANK,
    FILL,
    ZERO_PLACE,
    HASH_PLACE,
    QUESTION_PLACE,
    POINT,
    PERCENT,
    GENERAL,
    AT,
    YEAR,
    MONTH,
    DAY,
    HOUR,
    MINUTE,
    SECOND,
    PART,
    ELAPSED_HOURS,
    ELAPSED_MINUTES,
    ELAPSED_SECONDS,
    HALF_DAY
};

/* What the second word of a place has at power 0, and at the highest power. */
enum { POWER_NOUGHT = 16, POWER_MOST = 35 };

/* Whether the words keep every table rule. */
bool table_passes(const uint16_t *table, size_t len);

/* The following are about tables that pass. */

static inline const uint16_t *head_of(const uint16_t *table, unsigned section)
{
    return table + 1 + HEAD_WORDS * section;
}

/* How many sections numbers and instants may go to: those that are neither text nor fourth. */
static inline unsigned counted_sections(const uint16_t *table)
{
    unsigned count = table[0];

    return count - (count == SECTIONS_MOST || head_of(table, count - 1)[KIND] == TEXT_KIND);
}

static inline uint32_t condition_number(const uint16_t *low)
{
    return low[0] | (uint32_t)low[1] << 16;
}

#endif
