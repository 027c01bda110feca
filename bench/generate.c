#include "generate.h"

#include <stdio.h>
#include <string.h>

#include "numfmt.h"
#include "powers.h"
#include "random.h"
#include "table.h"

#define COUNT(array) (sizeof(array) / sizeof *(array))

/* Codes: sections of pieces that mostly fit together */

static const char *const marks[] = {"-", " ", "$", "(", ")", "/", ":", "\"kg\"", "\\x", "_)", "*-", "\";\""};
static const char *const number_pieces[] = {"0", "#", "?", "0", "#", "?", ".", ",", "%", "0.0", ".0#", "#,##0", "0,0"};
static const char *const date_pieces[] = {"yy", "yyyy",  "m",    "mm",   "mmm",    "mmmm", "mmmmm", "d",     "dd",
                                          "ddd", "dddd", "h",    "hh",   "h:m",    "s",    "ss",    "ss.00", "s.000",
                                          "[h]", "[mm]", "[sss]", "A/P", "AM/PM", ",",    ".",     "[s].0", "h:mm"};
static const char *const general_pieces[] = {"General"};
static const char *const text_pieces[] = {"@"};
static const char *const colours[] = {"[Red]", "[Cyan]", "[Color9]", "[Color56]"};
static const char *const operators[] = {"=", "<", ">", "<=", ">=", "<>"};

static const struct {
    const char *const *pieces;
    size_t count;
    int most; /* pieces of a section */
} kinds[] = {
    {marks, COUNT(marks), 3},
    {general_pieces, COUNT(general_pieces), 1},
    {number_pieces, COUNT(number_pieces), 7},
    {text_pieces, COUNT(text_pieces), 3},
    {date_pieces, COUNT(date_pieces), 6},
};

typedef struct {
    char units[4 * NUMFMT_CODE_MOST];
    size_t len;
} code_text;

static void add(code_text *to, const char *piece)
{
    size_t len = strlen(piece);

    if (to->len + len < sizeof to->units) {
        memcpy(to->units + to->len, piece, len);
        to->len += len;
    }
}

static void add_condition(uint64_t *state, code_text *to)
{
    static const char *const decimals[] = {"", "", ".5", ".000001", ".25"};
    char condition[40];

    snprintf(condition, sizeof condition, "[%s%s%d%s]", operators[random_below(state, COUNT(operators))],
             random_chance(state, 30) ? "-" : "", random_between(state, 0, 3), decimals[random_below(state, COUNT(decimals))]);
    add(to, condition);
}

static void add_section(uint64_t *state, code_text *to)
{
    size_t kind = random_below(state, COUNT(kinds));
    int pieces = random_between(state, kind == LITERAL_KIND ? 0 : 1, kinds[kind].most);

    if (random_chance(state, 20))
        add(to, colours[random_below(state, COUNT(colours))]);
    if (random_chance(state, 25))
        add_condition(state, to);
    for (; pieces > 0; pieces--) {
        add(to, kinds[kind].pieces[random_below(state, kinds[kind].count)]);
        if (random_chance(state, 25))
            add(to, marks[random_below(state, COUNT(marks))]);
    }
}

/* Whether the walker knows every kind of section: places and a mark may have come to a fraction. */
static bool is_walked(const uint16_t *table)
{
    unsigned section;

    for (section = 0; section < table[0]; section++)
        if (head_of(table, section)[KIND] > DATE_KIND)
            return false;
    return true;
}

/* Whether the code was accepted, with kinds that the walker knows. */
static bool prepare_random(uint64_t *state, random_table *made)
{
    uint16_t units[4 * NUMFMT_CODE_MOST];
    code_text code = {"", 0};
    int sections = random_between(state, 1, 4);
    size_t at;

    for (; sections > 0; sections--) {
        add_section(state, &code);
        if (sections > 1)
            add(&code, ";");
    }
    if (random_chance(state, 1))
        while (code.len < NUMFMT_CODE_MOST)
            code.units[code.len++] = '-';
    for (at = 0; at < code.len; at++)
        units[at] = (unsigned char)code.units[at];
    made->count = numfmt_prepare(units, code.len, made->words, NUMFMT_TABLE_WORDS).words;
    return made->count > 0 && is_walked(made->words);
}

/* Tables with no code behind them, whose derived words are what their rules give, with limits passed now and then */

static void add_item(random_table *to, uint16_t *head, unsigned tag, int argument)
{
    to->words[to->count++] = (uint16_t)tag;
    to->words[to->count++] = (uint16_t)argument;
    head[ITEMS]++;
}

/* The ends of the range, and units that would be tokens in a code. */
static int random_unit(uint64_t *state)
{
    static const uint16_t units[] = {0, 65535, ',', '.', '%', '/', '0', '@'};

    return random_chance(state, 50) ? units[random_below(state, COUNT(units))] : (int)random_below(state, 65536);
}

static void add_mark(uint64_t *state, random_table *to, uint16_t *head)
{
    if (random_chance(state, 15))
        add_item(to, head, (unsigned)random_between(state, LITERAL, random_chance(state, 40) ? FILL : BLANK),
                 random_unit(state));
}

static void build_number(uint64_t *state, random_table *to, uint16_t *head)
{
    int whole = random_between(state, 0, 21), decimals = random_between(state, 0, 16);
    int percents = random_chance(state, 70) ? 0 : random_between(state, 0, 6);
    int commas = random_chance(state, 70) ? 0 : random_between(state, 0, 6), at;

    for (at = 0; at < percents; at++)
        add_item(to, head, PERCENT, 0);
    for (at = whole - 1; at >= -decimals; at--) {
        if (at == -1)
            add_item(to, head, POINT, 0);
        add_mark(state, to, head);
        add_item(to, head, (unsigned)random_between(state, ZERO_PLACE, QUESTION_PLACE), at + POWER_NOUGHT);
    }
    head[SHIFT] = (uint16_t)(15 + 2 * percents - 3 * commas);
    head[FLAGS] = (whole > 1 || random_chance(state, 10)) && random_chance(state, 50) ? GROUPING : 0;
    head[DECIMALS] = (uint16_t)decimals;
}

/* Now and then one too short or too long. */
static int random_length(uint64_t *state, int most)
{
    if (random_chance(state, 93))
        return random_between(state, 1, most);
    return random_chance(state, 50) ? 0 : most + 1;
}

static void build_date(uint64_t *state, random_table *to, uint16_t *head)
{
    static const int most[] = {4, 5, 4, 2, 2, 2, 3, 9, 9, 9, 2};
    int items = random_between(state, 1, 4);

    for (; items > 0; items--) {
        unsigned tag = (unsigned)random_between(state, YEAR, HALF_DAY);

        add_mark(state, to, head);
        add_item(to, head, tag, random_length(state, most[tag - YEAR]));
        if (tag == HALF_DAY)
            head[FLAGS] = TWELVE_HOUR;
    }
}

/* Literals, and General once or an at some times. */
static void build_marks(uint64_t *state, random_table *to, uint16_t *head)
{
    int marks = head[KIND] == LITERAL_KIND ? 0 : head[KIND] == GENERAL_KIND ? 1 : random_between(state, 1, 3);

    for (add_mark(state, to, head); marks > 0; marks--) {
        add_item(to, head, head[KIND] == GENERAL_KIND ? GENERAL : AT, 0);
        add_mark(state, to, head);
    }
}

static void build_condition(uint64_t *state, uint16_t *head)
{
    static const uint32_t wholes[] = {0, 1, 2, 3, 999999999, 1000000000}, millionths[] = {0, 1, 500000, 999999, 1000000};
    uint32_t whole = wholes[random_below(state, COUNT(wholes))], rest = millionths[random_below(state, COUNT(millionths))];

    head[OPERATOR] = (uint16_t)random_between(state, 1, 6 + random_chance(state, 5));
    head[NEGATIVE] = random_chance(state, 30);
    head[WHOLE] = (uint16_t)whole;
    head[WHOLE + 1] = (uint16_t)(whole >> 16);
    head[MILLIONTHS] = (uint16_t)rest;
    head[MILLIONTHS + 1] = (uint16_t)(rest >> 16);
}

static void build_section(uint64_t *state, random_table *to, uint16_t *head)
{
    head[KIND] = (uint16_t)random_between(state, LITERAL_KIND, DATE_KIND);
    if (random_chance(state, 20))
        head[COLOUR] = (uint16_t)random_between(state, 50, 57);
    if (random_chance(state, 15))
        build_condition(state, head);
    if (head[KIND] == NUMBER_KIND)
        build_number(state, to, head);
    else if (head[KIND] == DATE_KIND)
        build_date(state, to, head);
    else
        build_marks(state, to, head);
}

static void build_table(uint64_t *state, random_table *made)
{
    unsigned sections = random_chance(state, 50) ? 1 : (unsigned)random_between(state, 2, 4), section;
    uint16_t *first = made->words + 1, *second = first + HEAD_WORDS;

    made->words[0] = (uint16_t)sections;
    made->count = 1 + HEAD_WORDS * sections;
    for (section = 0; section < sections; section++)
        build_section(state, made, first + HEAD_WORDS * section);
    if (sections > 1 && second[OPERATOR] == 0 && second[KIND] != TEXT_KIND &&
        (first[OPERATOR] == 0 || counted_sections(made->words) == 3))
        second[FLAGS] |= NO_MINUS;
}

/* Damage */

static uint16_t random_word(uint64_t *state)
{
    return (uint16_t)(random_chance(state, 80) ? random_below(state, 26) : random_bits(state));
}

/* Takes an item out or puts one in twice, with the right count, so that the rules for items see it. */
static void change_items(uint64_t *state, random_table *to, bool twice)
{
    size_t heads = 1 + HEAD_WORDS * (size_t)to->words[0], section, item = heads;

    if (to->words[0] == 0 || to->words[0] > SECTIONS_MOST || to->count <= heads)
        return;
    for (section = 0; section + 1 < to->words[0] && random_chance(state, 50); section++)
        item += ITEM_WORDS * (size_t)to->words[HEAD_WORDS * (section + 1)];
    if (to->words[HEAD_WORDS * (section + 1)] == 0)
        return;
    item += ITEM_WORDS * random_below(state, to->words[HEAD_WORDS * (section + 1)]);
    if (item + ITEM_WORDS > to->count || to->count + ITEM_WORDS > WORDS_MOST)
        return;
    if (twice)
        memmove(to->words + item + ITEM_WORDS, to->words + item, (to->count - item) * sizeof *to->words);
    else
        memmove(to->words + item, to->words + item + ITEM_WORDS, (to->count - item - ITEM_WORDS) * sizeof *to->words);
    to->words[HEAD_WORDS * (section + 1)] += twice ? 1 : -1;
    to->count += twice ? ITEM_WORDS : -(size_t)ITEM_WORDS;
}

/* Exchanges runs of words that do not overlap. */
static void swap_words(random_table *in, size_t one, size_t other, size_t count)
{
    for (; count > 0; count--, one++, other++) {
        uint16_t word = in->words[one];

        in->words[one] = in->words[other];
        in->words[other] = word;
    }
}

static void damage(uint64_t *state, random_table *to)
{
    static const int steps[] = {1, -1, 2, 3, 4};
    size_t at = random_below(state, to->count + 1);

    if (random_chance(state, 40) && at > HEAD_WORDS)
        at = random_below(state, HEAD_WORDS + 1); /* most words are items: the first head gets its share */
    switch (random_below(state, 10)) {
    case 0:
    case 1:
        to->words[at] = random_word(state);
        break;
    case 2:
        swap_words(to, at, random_below(state, to->count + 1), 1);
        break;
    case 3:
        if (at + 2 * ITEM_WORDS <= to->count)
            swap_words(to, at, at + ITEM_WORDS, ITEM_WORDS);
        break;
    case 4:
        to->count += random_chance(state, 50) || to->count == 0 ? 1 : -(size_t)1;
        break;
    case 5:
    case 6:
        change_items(state, to, random_chance(state, 60));
        break;
    default:
        to->words[at] = (uint16_t)(to->words[at] + steps[random_below(state, COUNT(steps))]);
    }
}

void make_table(uint64_t *state, random_table *made)
{
    int damages = random_chance(state, 40) ? random_between(state, 1, 3) : 0;

    memset(made, 0, sizeof *made);
    if (random_chance(state, 40))
        build_table(state, made);
    else
        while (!prepare_random(state, made)) {
        }
    for (; damages > 0; damages--)
        damage(state, made);
}

/* Values */

/* Of few figures and just beside such, as the conditions name; of any size; at the edges and past them. */
static void make_number(uint64_t *state, random_value *made)
{
    static const int64_t edges[] = {0, 1, 5, 50, 100, 99999999999, 100000000000, 999999999999999, 1000000000000000, INT64_MAX};
    uint32_t power = (uint32_t)random_below(state, 12);

    made->scale = (uint32_t)random_below(state, 16);
    switch (random_below(state, 4)) {
    case 0:
        made->coefficient = random_between(state, -350, 350) * (int64_t)power_of_ten[power] + random_between(state, -1, 1);
        made->scale = 2 + power;
        break;
    case 1:
        made->coefficient = edges[random_below(state, COUNT(edges))] * (random_chance(state, 50) ? 1 : -1);
        break;
    case 2:
        made->coefficient = 5 * (int64_t)power_of_ten[power] * random_between(state, -199, 199);
        break;
    default:
        made->coefficient = (int64_t)random_below(state, power_of_ten[random_below(state, POWERS)] + 1);
        if (random_chance(state, 50))
            made->coefficient = -made->coefficient;
    }
    if (random_chance(state, 1))
        made->scale = random_chance(state, 50) ? 16 : (uint32_t)random_bits(state);
    if (random_chance(state, 1))
        made->coefficient = INT64_MIN;
}

/* At an edge, or anywhere, mostly at a whole hour, minute, second or part of one. */
static uint32_t make_millisecond(uint64_t *state)
{
    static const uint32_t milliseconds[] = {0, 1, 999, 43199999, 43200000, 86399999};
    static const uint32_t spans[] = {1, 1, 10, 100, 500, 1000, 30000, 60000, 1800000, 3600000};
    uint32_t span = spans[random_below(state, COUNT(spans))];

    return random_chance(state, 50) ? milliseconds[random_below(state, COUNT(milliseconds))]
                                    : (uint32_t)random_below(state, 86400000 / span) * span;
}

static void make_instant(uint64_t *state, random_value *made)
{
    static const uint32_t days[] = {0, 1, 2, 3, 31, 32, 59, 60, 61, 366, 367, 36584, 36585, 36586, 2958465};

    made->day = random_chance(state, 50) ? days[random_below(state, random_chance(state, 50) ? 4 : COUNT(days))]
                                         : (uint32_t)random_below(state, 2958466);
    made->millisecond = make_millisecond(state);
    if (random_chance(state, 2))
        made->day = random_chance(state, 50) ? 2958466 : UINT32_MAX;
    if (random_chance(state, 2))
        made->millisecond = random_chance(state, 50) ? 86400000 : UINT32_MAX;
}

static void make_text(uint64_t *state, random_value *made)
{
    size_t at;

    made->text_len = random_chance(state, 95) ? random_below(state, 20) : 1023 + random_below(state, 3);
    for (at = 0; at < made->text_len; at++)
        made->text[at] = (uint16_t)random_bits(state);
}

void make_value(uint64_t *state, random_value *made)
{
    make_number(state, made);
    make_instant(state, made);
    make_text(state, made);
}
