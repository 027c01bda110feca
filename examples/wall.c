/*
 * A river wall: each row's code is prepared, and its value put on the board
 * through the table. When all rows are known, they are drawn in their colours,
 * and a value that was rounded or cut is marked behind the widest. A row that is
 * refused says why in its place, and the wall goes on. With arguments the rows
 * are theirs: a code and a value each, the value `@SECONDS` since 1970, a number,
 * or else a text. After `--why` each row is followed by the reason for what it
 * shows.
 *
 *   tools/archive
 *   cc -std=c99 -Iinclude examples/wall.c target/staticlib/libc_api.a -o target/wall && target/wall
 */
#include "row.h"

typedef struct {
    char label[32];
    const char *code;
    const char *value;
} row;

/* What became of a row's code and of its value, and why. */
typedef struct {
    numfmt_prepared made;
    numfmt_shown shown;
    numfmt_reason why;
    uint16_t text[ROW_UNITS];
} line;

#define DIFFERENCE "+#,##0;[Red]-#,##0;\"no change\""

static const row wall[] = {
    {"Today", "dddd, d mmmm yyyy", "@1728864000"},
    {"Passed this year", "#,##0\" salmon\"", "12408"},
    {"Against last year", DIFFERENCE, "-1317"},
    {"Against yesterday", DIFFERENCE, "24"},
    {"Trout", DIFFERENCE, "0"},
    {"Water", "0.0\" \xc2\xb0" "C\"", "11.25"},
    {"Last seen", "h:mm AM/PM", "@1728923763"},
    {"The ladder", "\"now: \"@", "gates open"},
};

/* Hands the board back with the row on it, if its code and its value are shown. */
static numfmt_board show_row(numfmt_board board, uint32_t at, const row *asked, line *shown)
{
    uint16_t table[NUMFMT_TABLE_WORDS];
    value wanted = value_of(asked->value);
    numfmt_put put;

    shown->made = prepare_code(asked->code, table);
    if (shown->made.answer != NUMFMT_ANSWER_DONE)
        return board;
    put = board_value(board, at, table, shown->made.words, &wanted, shown->text);
    shown->shown = put.shown;
    shown->why = why_value(table, shown->made.words, &wanted);
    return put.board;
}

/* 1 when the row is shown, 0 when it is refused. */
static int put_row(const row *asked, const line *shown, uint32_t widest, int why)
{
    printf("%-18s ", asked->label);
    if (shown->made.answer != NUMFMT_ANSWER_DONE) {
        put_refusal(shown->made.answer, shown->made.place);
        return 0;
    }
    if (!put_shown(shown->shown, shown->text, widest))
        return 0;
    if (why)
        put_reason("                   ", shown->why);
    return 1;
}

/* 1 when every row is shown. */
static int put_rows(const row *asked, size_t count, line *shown, int why)
{
    numfmt_board board = numfmt_board_empty();
    size_t at;
    int all = 1;

    for (at = 0; at < count; at++)
        board = show_row(board, (uint32_t)at, &asked[at], &shown[at]);
    for (at = 0; at < count; at++)
        all &= put_row(&asked[at], &shown[at], board.widest, why);
    return all;
}

static void *memory(size_t count, size_t size)
{
    void *made = calloc(count, size);

    if (made == NULL) {
        fputs("wall: no memory\n", stderr);
        exit(2);
    }
    return made;
}

static row *rows_of(size_t count, char **arguments)
{
    row *rows = (row *)memory(count, sizeof *rows);
    size_t at;

    for (at = 0; at < count; at++) {
        snprintf(rows[at].label, sizeof rows[at].label, "Row %lu", (unsigned long)at + 1);
        rows[at].code = arguments[2 * at];
        rows[at].value = arguments[2 * at + 1];
    }
    return rows;
}

/* Exit status 0 when every row was shown, 1 when one was refused, 2 for a wrong use. */
int main(int count, char **arguments)
{
    int why = count > 1 && strcmp(arguments[1], "--why") == 0;
    size_t given = (size_t)(count - 1 - why), rows = given == 0 ? sizeof wall / sizeof wall[0] : given / 2;
    row *own = NULL;
    line *shown;
    int all;

    if (given % 2 != 0) {
        fprintf(stderr, "usage: wall [--why] [CODE VALUE]...\n");
        return 2;
    }
    if (given > 0)
        own = rows_of(rows, arguments + 1 + why);
    shown = (line *)memory(rows, sizeof *shown);
    all = put_rows(given > 0 ? own : wall, rows, shown, why);
    free(shown);
    free(own);
    return all ? 0 : 1;
}
