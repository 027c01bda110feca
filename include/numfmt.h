/*
 * Prepares a SpreadsheetML number format code into a table, and shows a value
 * through the table.
 *
 * Codes, tables, texts and rooms are lent runs of 16-bit units (UTF-16; a unit
 * may be any number). No call keeps a pointer or allocates, and the library has
 * no state: nothing is done before the first call or behind the last. Any number
 * of threads may call at once, and lend the same code, table or text, where each
 * has a table room or text room of its own. A board or a stream is a plain struct
 * of the caller's: a call takes it by value and hands it back whole.
 *
 * What a caller owes, and nothing checks:
 *   - each pointer is valid for the length beside it, aligned for a uint16_t;
 *   - no pointer is null, not even with length 0. An empty vector's data() may
 *     be null: lend a unit of your own with length 0 instead,
 *         static const uint16_t none = 0;
 *         numfmt_show_text(table, words, &none, 0, room, room_len);
 *   - memory that a call may write (the table of numfmt_prepare and of
 *     numfmt_stream_end, the room of the others) overlaps nothing else lent in
 *     the same call;
 *   - NUMFMT_STACK_BYTES of stack are free.
 * All else is checked by the call: any units at all may be lent as a code, a
 * part of one, a table or a text, any number may be given as a value or a row,
 * and any numbers may stand in a board or a stream.
 *
 * What every call leaves: units of a table or room past the reported length
 * keep their contents; on a refusal all of them do. On a refusal every number
 * returned, but the answer, the place, a board and a stream, is 0; a refused
 * put or clear hands the board back number for number, and 15 the stream; an
 * end that is refused otherwise hands it back ended. What is lent as const is
 * only read.
 */
#ifndef NUMFMT_H
#define NUMFMT_H

#include <stddef.h>
#include <stdint.h>

#ifdef __cplusplus
extern "C" {
#endif

/* The version of this header and its archive: 10000 * major + 100 * minor + patch. */
#define NUMFMT_VERSION 500
#define NUMFMT_VERSION_TEXT "0.5.0"

/* Words of table room that hold the table of every accepted code. */
#define NUMFMT_TABLE_WORDS 557
/* Most units of a code. */
#define NUMFMT_CODE_MOST 254
/* Most units of a text value. */
#define NUMFMT_TEXT_MOST 1024
/* Rows of a board. */
#define NUMFMT_BOARD_ROWS 64

/*
 * Most units that a call shows through any table: a room of so many is never
 * refused with 13. A section has at most 254 items. Of a number they show most
 * where each is an @, General's 11 units, and one minus goes before them all:
 * places, an exponent or a fraction come to less. An item shows of an instant a
 * name of 9, and one of them a count of 12; of a text the text, or 1 unit.
 */
#define NUMFMT_SHOWN_NUMBER_MOST 2795
#define NUMFMT_SHOWN_INSTANT_MOST 2289
#define NUMFMT_SHOWN_TEXT_MOST 260096
/* The same for a text of `units` units. */
#define NUMFMT_SHOWN_TEXT_OF(units) (254 * ((units) > 1 ? (units) : 1))

/*
 * Stack that is enough for each call, whatever is lent: none of them recurses.
 * Measured on x86-64: some 3,400 bytes for numfmt_prepare, 3,300 for
 * numfmt_section, 2,500 for the calls that show, 2,700 for those that ask why,
 * 4,900 for those that put a row, 2,300 for numfmt_board_clear, 500, 1,600 and
 * 5,500 to start, feed and end a stream, and 300 for numfmt_check, the boards and
 * streams that are passed counted; and up to 3,200 more where the loader first
 * looks up the C library's memset or memcpy, with which the end takes 8,200.
 */
#define NUMFMT_STACK_BYTES 12288

/*
 * The answers. Preparing tests 1 to 7 in that order, showing 8 to 13, putting a
 * row 16 and then as showing, ending a stream 15 and then as preparing; the first
 * that applies is given. Sections, units and rows are counted from 0.
 */
#define NUMFMT_ANSWER_DONE 0
#define NUMFMT_ANSWER_CODE_LENGTH 1   /* the code has 0 units, or more than 254 */
#define NUMFMT_ANSWER_TOKEN 2         /* a unit starts no token, or its token is broken; place: the unit */
#define NUMFMT_ANSWER_SECTION_COUNT 3 /* more than four sections; place: the fourth semicolon's unit */
#define NUMFMT_ANSWER_KIND 4          /* a section fits no kind; place: the section */
#define NUMFMT_ANSWER_STANDING 5      /* a section stands where it may not; place: the section */
#define NUMFMT_ANSWER_LIMIT 6         /* a count limit is passed; place: the section */
#define NUMFMT_ANSWER_TABLE_ROOM 7    /* the table needs more words than lent */
#define NUMFMT_ANSWER_TABLE 8         /* the words lent as a table break a table rule */
#define NUMFMT_ANSWER_RANGE 9         /* the value is out of range */
#define NUMFMT_ANSWER_NO_SECTION 10   /* no section takes the number or instant */
#define NUMFMT_ANSWER_SORT 11         /* the section chosen can't show that sort of value */
#define NUMFMT_ANSWER_GENERAL 12      /* General, rounded to a whole number, reaches 10^11 */
#define NUMFMT_ANSWER_TEXT_ROOM 13    /* the text is longer than the room */
#define NUMFMT_ANSWER_ENDED 15        /* the stream has ended */
#define NUMFMT_ANSWER_ROW 16          /* the row is 64 or above */

/* An answer in words, for people. */
static inline const char *numfmt_answer_text(uint16_t answer)
{
    static const char unknown[] = "No call gives this answer.";
    static const char *const texts[] = {
        "Done.",
        "The code is empty or longer than 254 signs.",
        "A sign means nothing here, or a quote, bracket or run of letters is broken.",
        "The code has more than four sections.",
        "The parts of this section do not go together.",
        "This section may not stand here.",
        "This section has too many places, percents, commas, digits or letters.",
        "The memory lent for the table is too short.",
        "The table is damaged or was not prepared from a code.",
        "The value is out of range.",
        "No section takes this value.",
        "The section that takes this value cannot show its kind.",
        "The number is too large for General.",
        "The text is too long for the room.",
        unknown,
        "The code has ended already.",
        "The board has no such row."
    };

    return answer < sizeof texts / sizeof texts[0] ? texts[answer] : unknown;
}

/* What preparing returns. The place is 0 but for answers 2 to 6. */
typedef struct {
    uint16_t answer;
    uint32_t place;
    uint32_t words;
} numfmt_prepared;

/*
 * What showing returns. The colour is 0 for none, 1 to 8 for black, white, red,
 * green, blue, yellow, magenta and cyan, or up to 56 for a colour by number.
 * The section is 0 to 3, or 4 when a text is shown by no section.
 *
 * `exact` is 1 where the value is shown exactly, sign aside: a number where the
 * figures, or the integer part and the fraction, are the scaled number; an
 * instant where nothing was cut below the finest of hour, minute, second and
 * part of a second that is shown, or below the day where none is; always a text,
 * and any value in a section of literals. Else, and on a refusal, it is 0. The
 * field is there from version 0.2.0 on.
 */
typedef struct {
    uint16_t answer;
    uint32_t length;
    uint16_t colour;
    uint16_t section;
    uint16_t exact;
} numfmt_shown;

/*
 * How a section was chosen: by its own condition; by its fallback, where one,
 * two, three or no sections count (those that are neither text nor fourth); or
 * for a text.
 */
#define NUMFMT_CHOICE_OWN_CONDITION 0
#define NUMFMT_CHOICE_ALL_VALUES 1    /* one section counts */
#define NUMFMT_CHOICE_FIRST_OF_TWO 2  /* at least 0 */
#define NUMFMT_CHOICE_REST_OF_TWO 3
#define NUMFMT_CHOICE_ABOVE_ZERO 4    /* three sections count */
#define NUMFMT_CHOICE_BELOW_ZERO 5
#define NUMFMT_CHOICE_REST_OF_THREE 6
#define NUMFMT_CHOICE_GENERAL 7       /* no section counts: as General where @ stands */
#define NUMFMT_CHOICE_TEXT_SECTION 8  /* a text, by the fourth or a text section */
#define NUMFMT_CHOICE_NO_SECTION 9    /* a text, by no section */

/* What is said of a section before the chosen one. */
#define NUMFMT_TRIED_NOT 0
#define NUMFMT_TRIED_OWN_FALSE 1      /* its own condition is false */
#define NUMFMT_TRIED_FALLBACK_FALSE 2 /* it has none, and its fallback is false */

/* Whether a minus was added, or what held it back: the first that applies. */
#define NUMFMT_MINUS_ADDED 0
#define NUMFMT_MINUS_TEXT 1
#define NUMFMT_MINUS_NOT_BELOW 2      /* the value is not below 0 */
#define NUMFMT_MINUS_NO_ITEM 3        /* the section is empty */
#define NUMFMT_MINUS_FOR_NEGATIVES 4  /* the section is for values below 0 */
#define NUMFMT_MINUS_NOUGHT 5         /* what is shown is nought */

/*
 * Why a value is shown as it is. `section` is as in numfmt_shown; `first` and
 * `second` are of the sections 0 and 1 where they stand before it; `cut` is how
 * many decimals were cut, at most 30: those of the exact number, after percents
 * and dividing commas, in a scientific section over its power of ten, and
 * without zeros at its end, that the rounding does not keep. It is 0 for an
 * instant, a text, a literal section and a fraction. On a refusal every number
 * but the answer is 0.
 */
typedef struct {
    uint16_t answer;
    uint16_t section;
    uint16_t choice;
    uint16_t first;
    uint16_t second;
    uint16_t minus;
    uint16_t cut;
} numfmt_reason;

/* A part of a code: `length` units from unit `start` on. */
typedef struct {
    uint32_t start;
    uint32_t length;
} numfmt_part;

/*
 * The rows of a wall. A row is filled where its number in `filled` is not 0,
 * which a put makes 1, and has the length and colour last shown there; an empty
 * row has 0 in all three. A row with an empty text is filled. `widest` is the
 * greatest length of the filled rows, 0 where there is none: every put and clear
 * that is done counts it anew, so that a wrong one, in a board made by hand, is
 * put right.
 */
typedef struct {
    uint8_t filled[NUMFMT_BOARD_ROWS];
    uint32_t length[NUMFMT_BOARD_ROWS];
    uint16_t colour[NUMFMT_BOARD_ROWS];
    uint32_t widest;
} numfmt_board;

/* What putting a row hands back: the board, and what the show returned. */
typedef struct {
    numfmt_board board;
    numfmt_shown shown;
} numfmt_put;

/* What clearing a row hands back: the board, and 0 or 16. */
typedef struct {
    numfmt_board board;
    uint16_t answer;
} numfmt_cleared;

/*
 * A code that arrives in parts: `count` units have come, of which `units` begins
 * with the first 254 (more are counted as 255), and `ended` is 0 until the end,
 * which makes it 1. At the start all numbers are 0. Of a stream made by hand any
 * count above 254 is a code that is too long, and any `ended` but 0 a stream that
 * has ended.
 */
typedef struct {
    uint16_t units[NUMFMT_CODE_MOST];
    uint16_t count;
    uint16_t ended;
} numfmt_stream;

/* What feeding a stream hands back: the place is 0, the answer 0 or 15. */
typedef struct {
    numfmt_stream stream;
    uint16_t answer;
    uint32_t place;
} numfmt_fed;

/* What ending a stream hands back, with what preparing returned. */
typedef struct {
    numfmt_stream stream;
    numfmt_prepared prepared;
} numfmt_finished;

/*
 * Writes the table of a code in front of the table room, and tells how many
 * words it has. Those words, and no more, are the table to lend to the calls
 * that show. Refuses with 1 to 7; a room of NUMFMT_TABLE_WORDS is never
 * refused with 7. (In a C string the ??/ of a fraction's code is a trigraph,
 * that is a backslash: write ?\?/ there.)
 */
numfmt_prepared numfmt_prepare(const uint16_t *code, size_t code_len,
                               uint16_t *table, size_t table_len);

/*
 * Where section n of a code stands, without semicolons. A section that is there
 * but empty has length 0 at its own start. For a missing section, and for a
 * code that numfmt_prepare refuses with 1 to 6, both numbers are 0. Writes
 * nothing.
 */
numfmt_part numfmt_section(const uint16_t *code, size_t code_len, uint32_t n);

/*
 * Tests the words of a table, as every call that shows does first: the answer
 * is 0 when they pass the table rules, else 8. For tables that come from a file,
 * so that a damaged one is told when it is loaded. Writes nothing.
 */
uint16_t numfmt_check(const uint16_t *table, size_t table_len);

/*
 * Shows the number coefficient / 10^scale: at most fifteen digits, scale 0 to
 * 15. Refuses with 8 to 13.
 */
numfmt_shown numfmt_show_number(const uint16_t *table, size_t table_len,
                                int64_t coefficient, uint32_t scale,
                                uint16_t *room, size_t room_len);

/*
 * Shows an instant: day 0 to 2,958,465 (day 1 is 1 January 1900), millisecond
 * of the day 0 to 86,399,999. Refuses with 8, 9, 10, 11 or 13.
 */
numfmt_shown numfmt_show_instant(const uint16_t *table, size_t table_len,
                                 uint32_t day, uint32_t millisecond,
                                 uint16_t *room, size_t room_len);

/*
 * Shows a text of 0 to NUMFMT_TEXT_MOST units. Refuses with 8, 9 or 13.
 */
numfmt_shown numfmt_show_text(const uint16_t *table, size_t table_len,
                              const uint16_t *text, size_t text_len,
                              uint16_t *room, size_t room_len);

/*
 * Why a value is shown as it is in a room of room_len units, of which none is
 * lent: nothing is written. Each refuses as the call that shows does. They
 * are there from version 0.3.0 on.
 */
numfmt_reason numfmt_why_number(const uint16_t *table, size_t table_len,
                                int64_t coefficient, uint32_t scale,
                                size_t room_len);

numfmt_reason numfmt_why_instant(const uint16_t *table, size_t table_len,
                                 uint32_t day, uint32_t millisecond,
                                 size_t room_len);

numfmt_reason numfmt_why_text(const uint16_t *table, size_t table_len,
                              const uint16_t *text, size_t text_len,
                              size_t room_len);

/*
 * A board whose rows are all empty: all numbers are 0. This and the other calls
 * on boards are there from version 0.4.0 on.
 */
numfmt_board numfmt_board_empty(void);

/*
 * Shows a value as numfmt_show_number does, and hands the board back with the
 * text's length and colour in the row and the width put right:
 *     numfmt_put put = numfmt_board_put_number(board, 3, table, words, ..);
 *     board = put.board;
 * Refuses with 16 for a row of 64 or above, whatever else is lent, and then as
 * showing does.
 */
numfmt_put numfmt_board_put_number(numfmt_board board, uint32_t row,
                                   const uint16_t *table, size_t table_len,
                                   int64_t coefficient, uint32_t scale,
                                   uint16_t *room, size_t room_len);

/* The same for an instant, as numfmt_show_instant shows it. */
numfmt_put numfmt_board_put_instant(numfmt_board board, uint32_t row,
                                    const uint16_t *table, size_t table_len,
                                    uint32_t day, uint32_t millisecond,
                                    uint16_t *room, size_t room_len);

/* The same for a text, as numfmt_show_text shows it. */
numfmt_put numfmt_board_put_text(numfmt_board board, uint32_t row,
                                 const uint16_t *table, size_t table_len,
                                 const uint16_t *text, size_t text_len,
                                 uint16_t *room, size_t room_len);

/*
 * Hands the board back with the row empty and the width put right. Refuses with
 * 16 for a row of 64 or above.
 */
numfmt_cleared numfmt_board_clear(numfmt_board board, uint32_t row);

/*
 * A code that arrives in parts, of any length, cut anywhere: start, feed each
 * part, and end, going on with the stream that each call hands back.
 *     numfmt_stream code = numfmt_stream_start();
 *     code = numfmt_stream_feed(code, part, part_len).stream;
 *     numfmt_finished f = numfmt_stream_end(code, table, table_len);
 * Feeding answers 0 however long the code grows. The end returns and writes what
 * numfmt_prepare does for the joined code in that room, and is final, even where
 * it is refused, with 7 too. Feeding after it, or ending again, is refused with
 * 15 whatever else is lent. A stream can be copied, and its copies go their own
 * ways. These calls are there from version 0.5.0 on.
 */
numfmt_stream numfmt_stream_start(void);

numfmt_fed numfmt_stream_feed(numfmt_stream stream, const uint16_t *part,
                              size_t part_len);

numfmt_finished numfmt_stream_end(numfmt_stream stream, uint16_t *table,
                                  size_t table_len);

#ifdef __cplusplus
}
#endif

#endif
