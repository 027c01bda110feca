#include "jobs.h"

#include <inttypes.h>
#include <stdio.h>
#include <stdlib.h>
#include <string.h>

#include "values.h"

#pragma weak numfmt_board_put_number
#pragma weak numfmt_board_clear
#pragma weak numfmt_stream_start
#pragma weak numfmt_stream_feed
#pragma weak numfmt_stream_end

specimen specimens[SPECIMENS] = {
    {.code = "#,##0", .number = plain_grouped},
    [FIXED] = {.code = "0.00", .number = plain_fixed},
    {.code = "#,##0.00;[Red](#,##0.00)", .number = plain_accounting},
    {.code = "d-mmm-yy", .instant = plain_date},
    {.code = "h:mm:ss AM/PM", .instant = plain_clock},
    {.code = "General", .number = plain_general},
    [SCIENTIFIC] = {.code = "0.00E+00", .number = plain_scientific},
    [FRACTION] = {.code = "# ?\?\?/\?\?\?", .number = plain_fraction}, /* two question marks and a solidus are a trigraph */
};

static const char *const by_sections[SECTIONS] = {
    "0.00",
    "0.00;0.00",
    "0.00;0.00;0.00",
    "0.00;0.00;0.00;@",
};

const double literal_counts[LITERALS] = {1, 10, 50, 100, 150, 200, 254};
const double place_counts[PLACES] = {1, 5, 10, 15, 20, 25, 30, 35};
const double section_counts[SECTIONS] = {1, 2, 3, 4};

job jobs[JOBS];
static prepared longest, literals[LITERALS], places[PLACES], sections[SECTIONS];
static uint16_t room[AMPLE];

/* Codes */

static void prepare_code(prepared *made, const char *code)
{
    numfmt_prepared result;
    size_t at;

    made->code_len = strlen(code);
    for (at = 0; at < made->code_len; at++)
        made->code[at] = (unsigned char)code[at];
    result = numfmt_prepare(made->code, made->code_len, made->table, NUMFMT_TABLE_WORDS);
    if (result.answer != ANSWER_DONE) {
        fprintf(stderr, "%s: answer %u, place %" PRIu32 "\n", code, (unsigned)result.answer, result.place);
        exit(1);
    }
    made->words = result.words;
}

static void prepare_literals(prepared *made, size_t count)
{
    char code[NUMFMT_CODE_MOST + 1] = "";

    memset(code, '-', count);
    prepare_code(made, code);
}

/* Twenty places before the point are the most. */
static void prepare_places(prepared *made, size_t count)
{
    char code[NUMFMT_CODE_MOST + 1] = "";

    memset(code, '0', count);
    if (count > 20) {
        memset(code + 21, '0', count - 20);
        code[20] = '.';
    }
    prepare_code(made, code);
}

/* Ten places, and as many literals as a code then has room for. */
static void prepare_longest(prepared *made)
{
    static const char places_first[] = "#,##0.000000\"";
    char code[NUMFMT_CODE_MOST + 1] = "";

    memset(code, 'x', NUMFMT_CODE_MOST);
    memcpy(code, places_first, strlen(places_first));
    code[NUMFMT_CODE_MOST - 1] = '"';
    prepare_code(made, code);
}

static void prepare_codes(void)
{
    size_t at;

    for (at = 0; at < SPECIMENS; at++)
        prepare_code(&specimens[at].made, specimens[at].code);
    for (at = 0; at < LITERALS; at++)
        prepare_literals(&literals[at], (size_t)literal_counts[at]);
    for (at = 0; at < PLACES; at++)
        prepare_places(&places[at], (size_t)place_counts[at]);
    for (at = 0; at < SECTIONS; at++)
        prepare_code(&sections[at], by_sections[at]);
    prepare_longest(&longest);
}

/* Batches: each goes once through the values */

static uint64_t batch_of_numbers(const job *one)
{
    uint64_t sum = 0;
    size_t at;

    for (at = 0; at < CALLS; at++)
        sum += one->number(one->units, one->count, coefficients[at], scales[at], room, one->room_len).length + room[0];
    return sum;
}

static uint64_t batch_of_instants(const job *one)
{
    uint64_t sum = 0;
    size_t at;

    for (at = 0; at < CALLS; at++)
        sum += one->instant(one->units, one->count, days[at], milliseconds[at], room, one->room_len).length + room[0];
    return sum;
}

static uint64_t batch_of_plain_numbers(const job *one)
{
    uint64_t sum = 0;
    size_t at;

    for (at = 0; at < CALLS; at++)
        sum += one->plain_number(coefficients[at], scales[at], room, one->room_len).length + room[0];
    return sum;
}

static uint64_t batch_of_plain_instants(const job *one)
{
    uint64_t sum = 0;
    size_t at;

    for (at = 0; at < CALLS; at++)
        sum += one->plain_instant(days[at], milliseconds[at], room, one->room_len).length + room[0];
    return sum;
}

static uint64_t batch_of_prints(const job *one)
{
    static char text[SHORT_ROOM];
    uint64_t sum = 0;
    size_t at;

    (void)one;
    for (at = 0; at < CALLS; at++)
        sum += (uint64_t)snprintf(text, sizeof text, "%.2f", doubles[at]) + (unsigned char)text[0];
    return sum;
}

static uint64_t batch_of_codes(const job *one)
{
    static uint16_t table[NUMFMT_TABLE_WORDS];
    uint64_t sum = 0;
    size_t at;

    for (at = 0; at < CALLS; at++)
        sum += numfmt_prepare(one->units, one->count, table, NUMFMT_TABLE_WORDS).words + table[0];
    return sum;
}

/* Batches on boards: every row in turn, so that most puts are over a row that is filled and most clears empty one. */

static numfmt_board board;

static uint64_t batch_of_puts(const job *one)
{
    uint64_t sum = 0;
    size_t at;

    for (at = 0; at < CALLS; at++) {
        numfmt_put put = numfmt_board_put_number(board, at % NUMFMT_BOARD_ROWS, one->units, one->count, coefficients[at],
                                                 scales[at], room, one->room_len);

        board = put.board;
        sum += put.shown.length + room[0] + board.widest;
    }
    return sum;
}

static uint64_t batch_of_clears(const job *one)
{
    uint64_t sum = 0;
    size_t at;

    (void)one;
    for (at = 0; at < CALLS; at++) {
        numfmt_cleared cleared = numfmt_board_clear(board, at % NUMFMT_BOARD_ROWS);

        board = cleared.board;
        sum += cleared.answer + board.widest;
    }
    return sum;
}

static uint64_t batch_of_hands(const job *one)
{
    uint64_t sum = 0;
    size_t at;

    (void)one;
    for (at = 0; at < CALLS; at++) {
        numfmt_put put = plain_handed(board, (uint32_t)at);

        board = put.board;
        sum += put.shown.length + board.widest;
    }
    return sum;
}

int has_boards(void)
{
    return numfmt_board_put_number != NULL && numfmt_board_clear != NULL;
}

/* Batches on streams: a code that comes in parts of so many units, from the start to the end. */

static uint64_t batch_of_streams(const job *one)
{
    static uint16_t table[NUMFMT_TABLE_WORDS];
    uint64_t sum = 0;
    size_t at, from;

    for (at = 0; at < CALLS; at++) {
        numfmt_stream stream = numfmt_stream_start();

        for (from = 0; from < one->count; from += one->room_len)
            stream = numfmt_stream_feed(stream, one->units + from, one->room_len).stream;
        sum += numfmt_stream_end(stream, table, NUMFMT_TABLE_WORDS).prepared.words + table[0];
    }
    return sum;
}

int has_streams(void)
{
    return numfmt_stream_start != NULL && numfmt_stream_feed != NULL && numfmt_stream_end != NULL;
}

/* Jobs */

static job show_job(const specimen *of, show_number *number, show_instant *instant, size_t room_len)
{
    job one = {.batch = of->number ? batch_of_numbers : batch_of_instants,
               .units = of->made.table,
               .count = of->made.words,
               .room_len = room_len,
               .number = number,
               .instant = instant};

    return one;
}

static job growth_job(const prepared *made, size_t room_len)
{
    job one = {.batch = batch_of_numbers,
               .units = made->table,
               .count = made->words,
               .room_len = room_len,
               .number = numfmt_show_number};

    return one;
}

static job plain_job(const specimen *of)
{
    job one = {.batch = of->number ? batch_of_plain_numbers : batch_of_plain_instants,
               .room_len = ROOM,
               .plain_number = of->number,
               .plain_instant = of->instant};

    return one;
}

static job prepare_job(const prepared *made)
{
    job one = {.batch = batch_of_codes, .units = made->code, .count = made->code_len};

    return one;
}

/* The short room holds every text, but is never one that surely takes it: a literal is one unit of code and of text. */
static void make_growth_jobs(job *ample, job *narrow, const prepared *from, size_t count)
{
    size_t at;

    for (at = 0; at < count; at++) {
        ample[at] = growth_job(&from[at], AMPLE);
        narrow[at] = growth_job(&from[at], SHORT_ROOM + from[at].code_len);
    }
}

/* A put shows what the first specimen's job shows. */
static void make_board_jobs(void)
{
    jobs[HANDED].batch = jobs[PUT].batch = jobs[CLEAR].batch = batch_of_hands;
    if (has_boards()) {
        jobs[PUT] = show_job(&specimens[0], numfmt_show_number, numfmt_show_instant, ROOM);
        jobs[PUT].batch = batch_of_puts;
        jobs[CLEAR].batch = batch_of_clears;
    }
}

/* A stream ends as the first specimen's job prepares: its code comes at once, or unit by unit. */
static void make_stream_jobs(void)
{
    jobs[STREAM] = jobs[STREAM_BY_UNITS] = jobs[PREPARE];
    if (has_streams()) {
        jobs[STREAM].batch = jobs[STREAM_BY_UNITS].batch = batch_of_streams;
        jobs[STREAM].room_len = jobs[STREAM].count;
        jobs[STREAM_BY_UNITS].room_len = 1;
    }
}

void make_jobs(void)
{
    size_t at;

    prepare_codes();
    jobs[PRINT].batch = batch_of_prints;
    for (at = 0; at < SPECIMENS; at++) {
        const specimen *of = &specimens[at];

        jobs[LIBRARY + at] = show_job(of, numfmt_show_number, numfmt_show_instant, ROOM);
        jobs[LIBRARY_SHORT + at] = show_job(of, numfmt_show_number, numfmt_show_instant, SHORT_ROOM);
        jobs[PLAIN + at] = plain_job(of);
        jobs[PREPARE + at] = prepare_job(&of->made);
    }
    for (at = 0; at < WALKED; at++) {
        jobs[WALKER + at] = show_job(&specimens[at], walker_show_number, walker_show_instant, ROOM);
        jobs[WALKER_SHORT + at] = show_job(&specimens[at], walker_show_number, walker_show_instant, SHORT_ROOM);
    }
    jobs[PREPARE_LONGEST] = prepare_job(&longest);
    make_board_jobs();
    make_stream_jobs();
    make_growth_jobs(jobs + BY_LITERALS, jobs + BY_LITERALS_SHORT, literals, LITERALS);
    make_growth_jobs(jobs + BY_PLACES, jobs + BY_PLACES_SHORT, places, PLACES);
    make_growth_jobs(jobs + BY_SECTIONS, jobs + BY_SECTIONS_SHORT, sections, SECTIONS);
}
