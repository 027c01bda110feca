#include "walker.h"

#include <string.h>

#include "calendar.h"
#include "powers.h"
#include "table.h"

enum { SCALE_MOST = 15, DAY_MOST = 2958465, MILLISECOND_MOST = 86399999 };

static const int64_t coefficient_most = 999999999999999;

/* A number or an instant. An instant is never negative and has no magnitude. */
typedef struct {
    bool is_instant, negative, positive;
    uint64_t magnitude;
    uint32_t scale;
    uint32_t day, millisecond;
} value;

/* A section that has been chosen. */
typedef struct {
    const uint16_t *head, *item, *end;
    unsigned number;
} section;

static numfmt_shown refused(uint16_t answer)
{
    numfmt_shown shown = {answer, 0, 0, 0, 0};

    return shown;
}

static numfmt_shown done(size_t length, const section *by, bool exact)
{
    numfmt_shown shown = {ANSWER_DONE, (uint32_t)length, by->head[COLOUR], (uint16_t)by->number, exact};

    return shown;
}

/* Which section */

static section section_at(const uint16_t *table, unsigned number)
{
    section found;
    unsigned before;

    found.head = head_of(table, number);
    found.item = head_of(table, table[0]);
    for (before = 0; before < number; before++)
        found.item += ITEM_WORDS * head_of(table, before)[ITEMS];
    found.end = found.item + ITEM_WORDS * found.head[ITEMS];
    found.number = number;
    return found;
}

static int order_of(uint64_t left, uint64_t right)
{
    return (left > right) - (left < right);
}

/* Fractions of a scale above 6 are compared at that scale, others as millionths: no product passes 10^15. */
static int number_order(const value *of, uint32_t whole, uint64_t millionths)
{
    uint64_t unit = power_of_ten[of->scale], fraction = of->magnitude % unit;
    int order = order_of(of->magnitude / unit, whole);

    if (order != 0)
        return order;
    if (of->scale > 6)
        return order_of(fraction, millionths * power_of_ten[of->scale - 6]);
    return order_of(fraction * power_of_ten[6 - of->scale], millionths);
}

static int instant_order(const value *of, uint32_t whole, uint64_t millionths)
{
    int order = order_of(of->day, whole);

    return order != 0 ? order : order_of(of->millisecond * UINT64_C(1000000), millionths * (MILLISECOND_MOST + 1));
}

static bool condition_holds(const uint16_t *head, const value *of)
{
    /* by operator: = < > <= >= <>; bits for below, equal, above */
    static const uint8_t holds[] = {0, 2, 1, 4, 3, 6, 5};
    uint32_t whole = condition_number(head + WHOLE), millionths = condition_number(head + MILLIONTHS);
    int order;

    if (of->negative != (head[NEGATIVE] != 0))
        order = of->negative ? -1 : 1;
    else if (of->is_instant)
        order = instant_order(of, whole, millionths);
    else
        order = number_order(of, whole, millionths);
    if (of->negative && head[NEGATIVE])
        order = -order;
    return holds[head[OPERATOR]] >> (order + 1) & 1;
}

/* Whether a section without a condition takes the value; the last takes the rest. */
static bool falls_to(unsigned number, unsigned counted, const value *of)
{
    if (number + 1 == counted)
        return true;
    if (counted == 2)
        return !of->negative;
    return number == 0 ? of->positive : of->negative;
}

/* The first section that takes the value, or -1. */
static int choose(const uint16_t *table, unsigned counted, const value *of)
{
    unsigned number;

    for (number = 0; number < counted; number++) {
        const uint16_t *head = head_of(table, number);

        if (head[OPERATOR] == 0 ? falls_to(number, counted, of) : condition_holds(head, of))
            return (int)number;
    }
    return -1;
}

/*
 * Room. A text goes straight to the room where the room is as long as the
 * longest text that the section could give, else to a scratch first.
 */
enum { GENERAL_UNITS = 11, SCRATCH = GENERAL_UNITS * ITEMS_MOST + 64 };

/* By kind: the most units of one item, and what may come on top: a minus, figures beyond the places, long counts. */
static const struct {
    uint16_t an_item, more;
} units_most[] = {{1, 1}, {1, GENERAL_UNITS}, {2, 35}, {GENERAL_UNITS, 1}, {9, 4}};

static bool takes_any(const section *by, size_t room_len)
{
    return units_most[by->head[KIND]].an_item * (size_t)by->head[ITEMS] + units_most[by->head[KIND]].more <= room_len;
}

static numfmt_shown kept(const section *by, bool exact, const uint16_t *start, const uint16_t *end, uint16_t *room,
                         size_t room_len)
{
    size_t length = (size_t)(end - start);

    if (start != room) {
        if (length > room_len)
            return refused(ANSWER_ROOM);
        memcpy(room, start, length * sizeof *room);
    }
    return done(length, by, exact);
}

/* Figures */

/* Digits by their power and 15, and the highest and lowest that count: those between are significant. */
enum { DIGITS = 40, UNITS_DIGIT = 15 };

typedef struct {
    uint8_t digit[DIGITS];
    int highest, lowest;
    bool nought, exact;
} figures;

/*
 * The number times 10^power, halves away from zero, and whether that is exact;
 * where the power is above 0, its zeros are left to the caller.
 */
static uint64_t rounded(uint64_t magnitude, int power, bool *exact)
{
    uint64_t unit, number;

    *exact = power >= 0 || magnitude == 0;
    if (power >= 0)
        return magnitude;
    if (power < -SCALE_MOST)
        return 0;
    unit = power_of_ten[-power];
    number = (magnitude + unit / 2) / unit;
    *exact = number * unit == magnitude;
    return number;
}

static void find_figures(figures *found, const value *of, const uint16_t *head)
{
    int power = head[SHIFT] - 15 - (int)of->scale + head[DECIMALS];
    int last = UNITS_DIGIT - head[DECIMALS];
    uint64_t number = rounded(of->magnitude, power, &found->exact);

    memset(found->digit, 0, sizeof found->digit);
    found->nought = number == 0;
    found->highest = found->nought ? -1 : last + (power > 0 ? power : 0) - 1;
    for (; number > 0; number /= 10)
        found->digit[++found->highest] = (uint8_t)(number % 10);
    found->lowest = last;
    while (found->lowest < UNITS_DIGIT && found->digit[found->lowest] == 0)
        found->lowest++;
}

/* The places of a grouped section that a comma follows: 10^3, 10^6 and so on. */
static bool ends_group(int place, unsigned flags)
{
    return (flags & GROUPING) && place > UNITS_DIGIT && (place - UNITS_DIGIT) % 3 == 0;
}

/* The digits above a place. */
static uint16_t *put_beyond(uint16_t *out, const figures *of, int place, unsigned flags)
{
    int at;

    for (at = of->highest; at > place; at--) {
        *out++ = '0' + of->digit[at];
        if (ends_group(at, flags))
            *out++ = ',';
    }
    return out;
}

static uint16_t *put_place(uint16_t *out, const figures *of, unsigned tag, int place, unsigned flags)
{
    bool significant = place >= UNITS_DIGIT ? place <= of->highest : place >= of->lowest;

    if (significant || tag == ZERO_PLACE) {
        *out++ = '0' + of->digit[place];
        if (ends_group(place, flags))
            *out++ = ',';
    } else if (tag == QUESTION_PLACE) {
        *out++ = ' ';
        if (ends_group(place, flags))
            *out++ = ' ';
    }
    return out;
}

static uint16_t *put_number(uint16_t *out, const section *by, const figures *of)
{
    unsigned flags = by->head[FLAGS];
    const uint16_t *item;
    bool begun = false;

    for (item = by->item; item < by->end; item += ITEM_WORDS)
        switch (item[0]) {
        case LITERAL:
            *out++ = item[1];
            break;
        case BLANK:
            *out++ = ' ';
            break;
        case FILL:
            break;
        case POINT:
            if (!begun)
                out = put_beyond(out, of, UNITS_DIGIT - 1, flags);
            begun = true;
            *out++ = '.';
            break;
        case PERCENT:
            *out++ = '%';
            break;
        default:
            if (!begun)
                out = put_beyond(out, of, item[1] - 1, flags);
            begun = true;
            out = put_place(out, of, item[0], item[1] - 1, flags);
        }
    return out;
}

/* General */

typedef struct {
    uint16_t units[GENERAL_UNITS + 1];
    unsigned first;
    bool nought, too_large, exact;
} general;

static int count_digits(uint64_t number)
{
    int count = 1;

    while (count < POWERS && number >= power_of_ten[count])
        count++;
    return count;
}

static void put_general_digits(general *found, uint64_t number, int decimals)
{
    found->first = GENERAL_UNITS + 1;
    for (; decimals > 0; decimals--, number /= 10) {
        found->units[--found->first] = '0' + number % 10;
        if (decimals == 1)
            found->units[--found->first] = '.';
    }
    do {
        found->units[--found->first] = '0' + number % 10;
        number /= 10;
    } while (number > 0);
}

static void find_general(general *found, const value *of)
{
    int decimals = 10 - count_digits(of->magnitude / power_of_ten[of->scale]);
    uint64_t number;

    if (decimals < 0)
        decimals = 0;
    if (decimals > (int)of->scale)
        decimals = (int)of->scale;
    number = rounded(of->magnitude, decimals - (int)of->scale, &found->exact);
    found->nought = number == 0;
    found->too_large = decimals == 0 && number >= UINT64_C(100000000000);
    for (; decimals > 0 && number % 10 == 0; decimals--)
        number /= 10;
    if (!found->too_large)
        put_general_digits(found, number, decimals);
}

/* Literals and blanks, and a run of units wherever General or an at stands. */
static uint16_t *put_items(uint16_t *out, const section *by, const uint16_t *units, size_t count)
{
    const uint16_t *item;

    for (item = by->item; item < by->end; item += ITEM_WORDS)
        switch (item[0]) {
        case LITERAL:
            *out++ = item[1];
            break;
        case BLANK:
            *out++ = ' ';
            break;
        case FILL:
            break;
        default:
            memcpy(out, units, count * sizeof *out);
            out += count;
        }
    return out;
}

/* Dates */

static uint16_t *put_padded(uint16_t *out, uint64_t number, unsigned width)
{
    uint16_t units[20];
    unsigned count = 0;

    do {
        units[count++] = '0' + number % 10;
        number /= 10;
    } while (number > 0 || count < width);
    while (count > 0)
        *out++ = units[--count];
    return out;
}

/* A number below 100, with two digits where the run has two. */
static uint16_t *put_pair(uint16_t *out, unsigned number, unsigned run)
{
    if (run == 2 || number >= 10)
        *out++ = '0' + number / 10;
    *out++ = '0' + number % 10;
    return out;
}

static uint16_t *put_name(uint16_t *out, const char *name, size_t most)
{
    for (; most > 0 && *name != '\0'; most--)
        *out++ = (uint16_t)*name++;
    return out;
}

static uint16_t *put_month(uint16_t *out, unsigned month, unsigned run)
{
    static const char *const names[] = {"January", "February", "March",     "April",   "May",      "June",
                                        "July",    "August",   "September", "October", "November", "December"};
    static const uint8_t most[] = {0, 0, 0, 3, 9, 1};

    return run <= 2 ? put_pair(out, month, run) : put_name(out, names[month - 1], most[run]);
}

static uint16_t *put_weekday(uint16_t *out, uint32_t day, unsigned run)
{
    static const char *const names[] = {"Saturday",  "Sunday",   "Monday", "Tuesday",
                                        "Wednesday", "Thursday", "Friday"};

    return put_name(out, names[day % 7], run == 3 ? 3 : 9);
}

static uint16_t *put_calendar(uint16_t *out, const value *of, const date *on, unsigned tag, unsigned run)
{
    if (tag == YEAR)
        return run == 2 ? put_pair(out, on->year % 100, 2) : put_padded(out, on->year, 4);
    if (tag == MONTH)
        return put_month(out, on->month, run);
    return run <= 2 ? put_pair(out, on->day, run) : put_weekday(out, of->day, run);
}

static uint16_t *put_elapsed(uint16_t *out, const value *of, uint32_t in_a_day, unsigned run)
{
    uint32_t unit = (MILLISECOND_MOST + 1) / in_a_day;

    return put_padded(out, (uint64_t)of->day * in_a_day + of->millisecond / unit, run);
}

/* The point and the first digits of the thousandths. */
static uint16_t *put_part(uint16_t *out, uint32_t millisecond, unsigned run)
{
    *out++ = '.';
    return put_padded(out, millisecond % 1000 / power_of_ten[3 - run], run);
}

static unsigned clock_hour(uint32_t millisecond, unsigned flags)
{
    unsigned hour = millisecond / 3600000;

    if ((flags & TWELVE_HOUR) == 0)
        return hour;
    return hour % 12 == 0 ? 12 : hour % 12;
}

static uint16_t *put_half_day(uint16_t *out, uint32_t millisecond, unsigned form)
{
    *out++ = millisecond < 43200000 ? 'A' : 'P';
    if (form == 2)
        *out++ = 'M';
    return out;
}

static uint16_t *put_time(uint16_t *out, const value *of, unsigned tag, unsigned run, unsigned flags)
{
    switch (tag) {
    case HOUR:
        return put_pair(out, clock_hour(of->millisecond, flags), run);
    case MINUTE:
        return put_pair(out, of->millisecond / 60000 % 60, run);
    case SECOND:
        return put_pair(out, of->millisecond / 1000 % 60, run);
    case PART:
        return put_part(out, of->millisecond, run);
    case ELAPSED_HOURS:
        return put_elapsed(out, of, 24, run);
    case ELAPSED_MINUTES:
        return put_elapsed(out, of, 1440, run);
    case ELAPSED_SECONDS:
        return put_elapsed(out, of, 86400, run);
    default:
        return put_half_day(out, of->millisecond, run);
    }
}

/* The milliseconds of what an item of the time shows. A half-day mark is no hour: like a date it leaves the day. */
static uint32_t span_of(unsigned tag, unsigned run)
{
    static const uint32_t spans[] = {3600000, 60000, 1000, 0, 3600000, 60000, 1000, MILLISECOND_MOST + 1};

    return tag == PART ? (uint32_t)power_of_ten[3 - run] : spans[tag - HOUR];
}

/* The date is found where the first item asks for it. It is exact where the finest span shown leaves nothing. */
static uint16_t *put_date(uint16_t *out, const section *by, const value *of, bool *exact)
{
    uint32_t finest = MILLISECOND_MOST + 1;
    const uint16_t *item;
    date on = {0, 0, 0};

    for (item = by->item; item < by->end; item += ITEM_WORDS)
        switch (item[0]) {
        case LITERAL:
            *out++ = item[1];
            break;
        case BLANK:
            *out++ = ' ';
            break;
        case FILL:
            break;
        case YEAR:
        case MONTH:
        case DAY:
            if (on.year == 0)
                on = date_of(of->day);
            out = put_calendar(out, of, &on, item[0], item[1]);
            break;
        default:
            if (span_of(item[0], item[1]) < finest)
                finest = span_of(item[0], item[1]);
            out = put_time(out, of, item[0], item[1], by->head[FLAGS]);
        }
    *exact = of->millisecond % finest == 0;
    return out;
}

/* Showing */

static uint16_t *put_minus(uint16_t *out, const section *by, const value *of)
{
    if (of->negative && by->head[ITEMS] > 0 && (by->head[FLAGS] & NO_MINUS) == 0)
        *out++ = '-';
    return out;
}

static numfmt_shown show_figures(const section *by, const value *of, uint16_t *room, size_t room_len)
{
    uint16_t scratch[SCRATCH];
    uint16_t *start = takes_any(by, room_len) ? room : scratch, *out = start;
    figures found;

    find_figures(&found, of, by->head);
    if (!found.nought)
        out = put_minus(out, by, of);
    return kept(by, found.exact, start, put_number(out, by, &found), room, room_len);
}

static numfmt_shown show_general(const section *by, const value *of, uint16_t *room, size_t room_len)
{
    uint16_t scratch[SCRATCH];
    uint16_t *start = takes_any(by, room_len) ? room : scratch, *out = start;
    general found;

    find_general(&found, of);
    if (found.too_large)
        return refused(ANSWER_GENERAL);
    if (!found.nought)
        out = put_minus(out, by, of);
    out = put_items(out, by, found.units + found.first, GENERAL_UNITS + 1 - found.first);
    return kept(by, found.exact, start, out, room, room_len);
}

/* A section of literals, which is exact, or a date for an instant. */
static numfmt_shown show_unrounded(const section *by, const value *of, uint16_t *room, size_t room_len)
{
    uint16_t scratch[SCRATCH];
    uint16_t *start = takes_any(by, room_len) ? room : scratch, *out = put_minus(start, by, of);
    bool exact = true;

    out = by->head[KIND] == DATE_KIND ? put_date(out, by, of, &exact) : put_items(out, by, NULL, 0);
    return kept(by, exact, start, out, room, room_len);
}

static numfmt_shown show_value(const uint16_t *table, const value *of, uint16_t *room, size_t room_len)
{
    unsigned counted = counted_sections(table);
    int number = counted == 0 ? 0 : choose(table, counted, of);
    section by;

    if (number < 0)
        return refused(ANSWER_NO_SECTION);
    by = section_at(table, (unsigned)number);
    if (by.head[KIND] != LITERAL_KIND && of->is_instant != (by.head[KIND] == DATE_KIND))
        return refused(ANSWER_SORT);
    if (by.head[KIND] == NUMBER_KIND)
        return show_figures(&by, of, room, room_len);
    if (by.head[KIND] == GENERAL_KIND || by.head[KIND] == TEXT_KIND)
        return show_general(&by, of, room, room_len);
    return show_unrounded(&by, of, room, room_len);
}

numfmt_shown walker_show_number(const uint16_t *table, size_t table_len, int64_t coefficient, uint32_t scale,
                                uint16_t *room, size_t room_len)
{
    value of = {false, coefficient < 0, coefficient > 0, 0, scale, 0, 0};

    if (!table_passes(table, table_len))
        return refused(ANSWER_TABLE);
    if (coefficient > coefficient_most || coefficient < -coefficient_most || scale > SCALE_MOST)
        return refused(ANSWER_RANGE);
    of.magnitude = (uint64_t)(coefficient < 0 ? -coefficient : coefficient);
    return show_value(table, &of, room, room_len);
}

numfmt_shown walker_show_instant(const uint16_t *table, size_t table_len, uint32_t day, uint32_t millisecond,
                                 uint16_t *room, size_t room_len)
{
    value of = {true, false, (day | millisecond) != 0, 0, 0, day, millisecond};

    if (!table_passes(table, table_len))
        return refused(ANSWER_TABLE);
    if (day > DAY_MOST || millisecond > MILLISECOND_MOST)
        return refused(ANSWER_RANGE);
    return show_value(table, &of, room, room_len);
}

/* A text goes to the fourth section, else to a text section, which stands last; else to none. */
static bool find_text_section(section *found, const uint16_t *table)
{
    *found = section_at(table, table[0] - 1u);
    return table[0] == SECTIONS_MOST || found->head[KIND] == TEXT_KIND;
}

static size_t text_length(const section *by, size_t text_len)
{
    const uint16_t *item;
    size_t length = 0;

    for (item = by->item; item < by->end; item += ITEM_WORDS)
        length += item[0] == FILL ? 0 : item[0] < FILL ? 1 : text_len;
    return length;
}

static numfmt_shown show_text_itself(const uint16_t *text, size_t text_len, uint16_t *room, size_t room_len)
{
    numfmt_shown shown = {ANSWER_DONE, (uint32_t)text_len, 0, SECTIONS_MOST, true};

    if (text_len > room_len)
        return refused(ANSWER_ROOM);
    memcpy(room, text, text_len * sizeof *room);
    return shown;
}

numfmt_shown walker_show_text(const uint16_t *table, size_t table_len, const uint16_t *text, size_t text_len,
                              uint16_t *room, size_t room_len)
{
    section by;

    if (!table_passes(table, table_len))
        return refused(ANSWER_TABLE);
    if (text_len > NUMFMT_TEXT_MOST)
        return refused(ANSWER_RANGE);
    if (!find_text_section(&by, table))
        return show_text_itself(text, text_len, room, room_len);
    if (text_length(&by, text_len) > room_len)
        return refused(ANSWER_ROOM);
    return done((size_t)(put_items(room, &by, text, text_len) - room), &by, true);
}
