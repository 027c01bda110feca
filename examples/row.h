/*
 * A row of the examples: a value as a person writes it, and what stands in the
 * row when it is shown or refused.
 */
#ifndef ROW_H
#define ROW_H

#include <errno.h>
#include <stdlib.h>
#include <string.h>

#include "convert.h"
#include "numfmt.h"
#include "units.h"

/* Units that a row has room for: a longer text is refused with 13. */
enum { ROW_UNITS = 1024 };

typedef enum { NUMBER, INSTANT, TEXT, OUT_OF_RANGE } value_kind;

/* A value has the fields of its kind; the others are 0. */
typedef struct {
    value_kind kind;
    int64_t coefficient;
    uint32_t scale;
    uint32_t day, millisecond;
    const char *text;
} value;

/* Reads `@SECONDS` since 1970, as date(1) does; 0 when this is something else. */
static inline int reads_as_time(const char *written, value *read)
{
    char *end;
    long long seconds;

    if (written[0] != '@' || written[1] == '\0' || written[1 + strspn(written + 1, "-0123456789")] != '\0')
        return 0;
    errno = 0;
    seconds = strtoll(written + 1, &end, 10);
    if (*end != '\0')
        return 0;
    read->kind = INSTANT;
    if (errno != 0 || (time_t)seconds != seconds
        || !instant_of_time((time_t)seconds, &read->day, &read->millisecond))
        read->kind = OUT_OF_RANGE;
    return 1;
}

static inline int reads_as_number(const char *written, value *read)
{
    char *end;
    double number;

    if (written[strspn(written, "+-.0123456789eE")] != '\0')
        return 0;
    number = strtod(written, &end);
    if (end == written || *end != '\0')
        return 0;
    read->kind = number_of_double(number, &read->coefficient, &read->scale) ? NUMBER : OUT_OF_RANGE;
    return 1;
}

/* A time, else a number, else a text. */
static inline value value_of(const char *written)
{
    value read = {TEXT, 0, 0, 0, 0, NULL};

    if (!reads_as_time(written, &read) && !reads_as_number(written, &read))
        read.text = written;
    return read;
}

/* The units of a text value; of a text that is too long more than a value may have, so that it is refused. */
typedef struct {
    uint16_t units[NUMFMT_TEXT_MOST + 1];
    size_t length;
} text_units;

static inline text_units units_of(const char *text)
{
    text_units taken;

    taken.length = to_units(text, strlen(text), taken.units, NUMFMT_TEXT_MOST + 1);
    return taken;
}

static inline numfmt_shown show_text(const uint16_t *table, size_t words, const char *text, uint16_t *room)
{
    text_units taken = units_of(text);

    return numfmt_show_text(table, words, taken.units, taken.length, room, ROW_UNITS);
}

static inline numfmt_put board_text(numfmt_board board, uint32_t row, const uint16_t *table, size_t words,
                                    const char *text, uint16_t *room)
{
    text_units taken = units_of(text);

    return numfmt_board_put_text(board, row, table, words, taken.units, taken.length, room, ROW_UNITS);
}

/* A value that could not be converted is refused as the library refuses one out of range. */
static const numfmt_shown out_of_range = {NUMFMT_ANSWER_RANGE, 0, 0, 0, 0};

static inline numfmt_shown show_value(const uint16_t *table, size_t words, const value *asked, uint16_t *room)
{
    switch (asked->kind) {
    case NUMBER:
        return numfmt_show_number(table, words, asked->coefficient, asked->scale, room, ROW_UNITS);
    case INSTANT:
        return numfmt_show_instant(table, words, asked->day, asked->millisecond, room, ROW_UNITS);
    case TEXT:
        return show_text(table, words, asked->text, room);
    default:
        return out_of_range;
    }
}

/* The same in a row of a board. */
static inline numfmt_put board_value(numfmt_board board, uint32_t row, const uint16_t *table, size_t words,
                                     const value *asked, uint16_t *room)
{
    numfmt_put refused = {board, out_of_range};

    switch (asked->kind) {
    case NUMBER:
        return numfmt_board_put_number(board, row, table, words, asked->coefficient, asked->scale, room, ROW_UNITS);
    case INSTANT:
        return numfmt_board_put_instant(board, row, table, words, asked->day, asked->millisecond, room, ROW_UNITS);
    case TEXT:
        return board_text(board, row, table, words, asked->text, room);
    default:
        return refused;
    }
}

static inline numfmt_reason why_text(const uint16_t *table, size_t words, const char *text)
{
    text_units taken = units_of(text);

    return numfmt_why_text(table, words, taken.units, taken.length, ROW_UNITS);
}

static inline numfmt_reason why_value(const uint16_t *table, size_t words, const value *asked)
{
    numfmt_reason refused = {NUMFMT_ANSWER_RANGE, 0, 0, 0, 0, 0, 0};

    switch (asked->kind) {
    case NUMBER:
        return numfmt_why_number(table, words, asked->coefficient, asked->scale, ROW_UNITS);
    case INSTANT:
        return numfmt_why_instant(table, words, asked->day, asked->millisecond, ROW_UNITS);
    case TEXT:
        return why_text(table, words, asked->text);
    default:
        return refused;
    }
}

/* Why a row shows what it does, behind `lead`; nothing for a row that is refused. */
static inline void put_reason(const char *lead, numfmt_reason why)
{
    static const char *const choices[] = {
        "its own condition", "all values", "at least 0", "the rest of two", "above 0",
        "below 0", "the rest of three", "General", "a text section", "no section"
    };
    static const char *const tried[] = {"", "its own condition is false", "its fallback is false"};
    static const char *const minus[] = {
        "added", "none of a text", "none at or above 0", "none of an empty section",
        "none of a section for negative values", "none of nought"
    };

    if (why.answer != NUMFMT_ANSWER_DONE)
        return;
    printf("%ssection %u: %s", lead, why.section, choices[why.choice]);
    if (why.first != NUMFMT_TRIED_NOT)
        printf("; section 0: %s", tried[why.first]);
    if (why.second != NUMFMT_TRIED_NOT)
        printf("; section 1: %s", tried[why.second]);
    printf("; minus: %s; decimals cut: %u\n", minus[why.minus], why.cut);
}

/* The terminal's colours for 0 to 8: none, black, white, red, green, blue, yellow, magenta, cyan. */
static inline int terminal_colour(uint16_t colour)
{
    static const int colours[] = {39, 30, 37, 31, 32, 34, 33, 35, 36};

    return colour < sizeof colours / sizeof colours[0] ? colours[colour] : 39;
}

/* The rest of a row that is refused; the place is told where the answer has one. */
static inline void put_refusal(uint16_t answer, uint32_t place)
{
    printf("refused: %s", numfmt_answer_text(answer));
    if (answer == NUMFMT_ANSWER_TOKEN || answer == NUMFMT_ANSWER_SECTION_COUNT)
        printf(" (unit %lu)", (unsigned long)place);
    else if (answer >= NUMFMT_ANSWER_KIND && answer <= NUMFMT_ANSWER_LIMIT)
        printf(" (section %lu)", (unsigned long)place);
    putchar('\n');
}

/*
 * The rest of a row: a text in its colour, and a mark when the value was rounded
 * or cut, behind a column of this width; or the refusal. 1 when it is shown.
 */
static inline int put_shown(numfmt_shown shown, const uint16_t *text, uint32_t width)
{
    uint32_t at;

    if (shown.answer != NUMFMT_ANSWER_DONE) {
        put_refusal(shown.answer, 0);
        return 0;
    }
    printf("\033[%dm", terminal_colour(shown.colour));
    put_units(text, shown.length);
    printf("\033[0m");
    if (!shown.exact) {
        for (at = shown.length; at < width; at++)
            putchar(' ');
        printf(" (about)");
    }
    putchar('\n');
    return 1;
}

/* The value through the table, with its mark right behind it. */
static inline int put_value(const uint16_t *table, size_t words, const value *asked)
{
    uint16_t room[ROW_UNITS];
    numfmt_shown shown = show_value(table, words, asked, room);

    return put_shown(shown, room, 0);
}

/* The table of a code that is UTF-8. */
static inline numfmt_prepared prepare_code(const char *code, uint16_t *table)
{
    uint16_t units[NUMFMT_CODE_MOST + 1];
    size_t length = to_units(code, strlen(code), units, NUMFMT_CODE_MOST + 1);

    return numfmt_prepare(units, length, table, NUMFMT_TABLE_WORDS);
}

#endif
