#include "compare.h"

#include <inttypes.h>
#include <stdio.h>
#include <stdlib.h>
#include <string.h>

#include "generate.h"
#include "jobs.h"
#include "random.h"
#include "values.h"

/* Units behind a room, that no call may touch. */
enum { GUARD = 16, UNTOUCHED = 0xa5a5, ANSWERS = ANSWER_ROOM + 1 };

typedef enum { NUMBER_SORT, INSTANT_SORT, TEXT_SORT, SORTS } value_sort;

typedef struct {
    const uint16_t *table;
    size_t table_len;
    value_sort sort;
    const random_value *value;
    size_t room_len;
} request;

typedef struct {
    uint16_t units[ROOM + GUARD];
    numfmt_shown shown;
} outcome;

static void clear(outcome *to)
{
    size_t at;

    for (at = 0; at < ROOM + GUARD; at++)
        to->units[at] = UNTOUCHED;
}

static int same(const outcome *one, const outcome *other)
{
    return one->shown.answer == other->shown.answer && one->shown.length == other->shown.length &&
           one->shown.colour == other->shown.colour && one->shown.section == other->shown.section &&
           one->shown.exact == other->shown.exact &&
           memcmp(one->units, other->units, sizeof one->units) == 0;
}

static void show_by(const request *asked, outcome *to, show_number *number, show_instant *instant, show_text *text)
{
    const random_value *of = asked->value;

    clear(to);
    if (asked->sort == NUMBER_SORT)
        to->shown = number(asked->table, asked->table_len, of->coefficient, of->scale, to->units, asked->room_len);
    else if (asked->sort == INSTANT_SORT)
        to->shown = instant(asked->table, asked->table_len, of->day, of->millisecond, to->units, asked->room_len);
    else
        to->shown = text(asked->table, asked->table_len, of->text, of->text_len, to->units, asked->room_len);
}

static void print_outcome(const char *who, const outcome *of)
{
    size_t at;

    fprintf(stderr, "%s: answer %u, length %" PRIu32 ", colour %u, section %u, exact %u, units", who,
            (unsigned)of->shown.answer, of->shown.length, (unsigned)of->shown.colour, (unsigned)of->shown.section,
            (unsigned)of->shown.exact);
    for (at = 0; at < of->shown.length && at < ROOM; at++)
        fprintf(stderr, " %u", (unsigned)of->units[at]);
    fprintf(stderr, "\n");
}

static void print_request(const request *asked)
{
    const random_value *of = asked->value;
    size_t at;

    fprintf(stderr, "table");
    for (at = 0; at < asked->table_len; at++)
        fprintf(stderr, " %u", (unsigned)asked->table[at]);
    if (asked->sort == NUMBER_SORT)
        fprintf(stderr, "\nnumber %" PRId64 " / 10^%" PRIu32, of->coefficient, of->scale);
    else if (asked->sort == INSTANT_SORT)
        fprintf(stderr, "\ninstant %" PRIu32 "/%" PRIu32, of->day, of->millisecond);
    else
        fprintf(stderr, "\ntext of %zu units", of->text_len);
    fprintf(stderr, ", room of %zu\n", asked->room_len);
}

/* The outcome of both. */
static const outcome *agreed(const request *asked)
{
    static outcome library, walker;

    show_by(asked, &library, numfmt_show_number, numfmt_show_instant, numfmt_show_text);
    show_by(asked, &walker, walker_show_number, walker_show_instant, walker_show_text);
    if (!same(&library, &walker)) {
        print_request(asked);
        print_outcome("library", &library);
        print_outcome("walker", &walker);
        exit(1);
    }
    return &library;
}

/* The benchmark's own codes and values */

static plain_text plain_at(const specimen *of, size_t at, uint16_t *text, size_t text_len)
{
    if (of->number)
        return of->number(coefficients[at], scales[at], text, text_len);
    return of->instant(days[at], milliseconds[at], text, text_len);
}

/* The walker is asked too where it knows the code. */
static const outcome *shown_of(size_t which, const request *asked)
{
    static outcome library;

    if (which < WALKED)
        return agreed(asked);
    show_by(asked, &library, numfmt_show_number, numfmt_show_instant, numfmt_show_text);
    return &library;
}

static void compare_specimen(size_t which, size_t at, size_t room_len)
{
    static uint16_t by_hand[ROOM];
    const specimen *of = &specimens[which];
    random_value value = {.coefficient = coefficients[at],
                          .scale = scales[at],
                          .day = days[at],
                          .millisecond = milliseconds[at]};
    request asked = {of->made.table, of->made.words, of->number ? NUMBER_SORT : INSTANT_SORT, &value, room_len};
    const outcome *shown = shown_of(which, &asked);
    plain_text plain = plain_at(of, at, by_hand, room_len);

    if (shown->shown.answer != ANSWER_DONE || shown->shown.length != plain.length || shown->shown.colour != plain.colour ||
        memcmp(shown->units, by_hand, plain.length * sizeof *by_hand) != 0) {
        print_request(&asked);
        print_outcome("library", shown);
        fprintf(stderr, "%s: by hand it is another text\n", of->code);
        exit(1);
    }
}

void compare_specimens(void)
{
    size_t which, at;

    for (which = 0; which < SPECIMENS; which++)
        for (at = 0; at < CALLS; at++) {
            compare_specimen(which, at, ROOM);
            compare_specimen(which, at, SHORT_ROOM);
        }
}

/* Random ones */

/* The whole room; then, where the text was shown, one of its length and one less; then any. */
static size_t next_room(uint64_t *state, size_t length, int turn)
{
    if (turn == 0)
        return ROOM;
    if (turn == 1)
        return length;
    return turn == 2 && length > 0 ? length - 1 : random_below(state, SHORT_ROOM + 1);
}

/* One sort of value in four rooms. */
static void compare_rooms(uint64_t *state, request asked, size_t *answers)
{
    size_t length = 0;
    int turn;

    for (turn = 0; turn < 4; turn++) {
        const numfmt_shown *shown;

        asked.room_len = next_room(state, length, turn);
        shown = &agreed(&asked)->shown;
        length = shown->answer == ANSWER_DONE ? shown->length : length;
        answers[shown->answer]++;
    }
}

/* The table is lent at the end of its memory, so that a sanitizer sees a read past it. */
static const uint16_t *lent_at_end(const random_table *of)
{
    static uint16_t memory[WORDS_MOST];

    return memcpy(memory + WORDS_MOST - of->count, of->words, of->count * sizeof *memory);
}

void compare_random(size_t tables, uint64_t seed)
{
    static random_table table;
    static random_value value;
    size_t answers[ANSWERS] = {0}, made, answer;
    uint64_t state = seed * 2 + 1;

    for (made = 0; made < tables; made++) {
        request asked = {.value = &value};

        make_table(&state, &table);
        make_value(&state, &value);
        asked.table = lent_at_end(&table);
        asked.table_len = table.count;
        for (asked.sort = NUMBER_SORT; asked.sort < SORTS; asked.sort++)
            compare_rooms(&state, asked, answers);
    }
    printf("library and walker agree on %zu random tables; requests by answer:", tables);
    for (answer = 0; answer < ANSWERS; answer++)
        if (answers[answer] > 0)
            printf(" %zu: %zu", answer, answers[answer]);
    printf("\n");
}
