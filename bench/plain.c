#include "plain.h"

#include <stdbool.h>
#include <string.h>

#include "calendar.h"
#include "powers.h"

enum { MOST = 48, RED = 3, FRACTION_PLACES = 3, BELOW_MOST = 999 };

/* A text under way. It grows from its end to its front, as digits come. */
typedef struct {
    uint16_t units[MOST];
    size_t first;
} backward;

static void put(backward *text, char unit)
{
    text->units[--text->first] = (uint16_t)unit;
}

static void put_digits(backward *text, uint64_t number, unsigned count)
{
    for (; count > 0; count--, number /= 10)
        put(text, (char)('0' + number % 10));
}

static void put_whole(backward *text, uint64_t number)
{
    do {
        put(text, (char)('0' + number % 10));
        number /= 10;
    } while (number > 0);
}

static void put_grouped(backward *text, uint64_t number)
{
    while (number >= 1000) {
        put_digits(text, number % 1000, 3);
        put(text, ',');
        number /= 1000;
    }
    put_whole(text, number);
}

static plain_text keep(const backward *text, uint16_t colour, uint16_t *room, size_t room_len)
{
    size_t length = MOST - text->first;
    plain_text none = {0, 0};
    plain_text kept = {length, colour};

    if (length > room_len)
        return none;
    memcpy(room, text->units + text->first, length * sizeof *room);
    return kept;
}

static uint64_t magnitude_of(int64_t coefficient)
{
    return coefficient < 0 ? 0 - (uint64_t)coefficient : (uint64_t)coefficient;
}

/* The number in units of 10^-decimals, halves away from zero. */
static uint64_t rounded(int64_t coefficient, uint32_t scale, uint32_t decimals)
{
    uint64_t magnitude = magnitude_of(coefficient);
    uint64_t unit;

    if (scale <= decimals)
        return magnitude * power_of_ten[decimals - scale];
    unit = power_of_ten[scale - decimals];
    return (magnitude + unit / 2) / unit;
}

plain_text plain_grouped(int64_t coefficient, uint32_t scale, uint16_t *room, size_t room_len)
{
    backward text;
    uint64_t number = rounded(coefficient, scale, 0);

    text.first = MOST;
    put_grouped(&text, number);
    if (coefficient < 0 && number > 0)
        put(&text, '-');
    return keep(&text, 0, room, room_len);
}

plain_text plain_fixed(int64_t coefficient, uint32_t scale, uint16_t *room, size_t room_len)
{
    backward text;
    uint64_t hundredths = rounded(coefficient, scale, 2);

    text.first = MOST;
    put_digits(&text, hundredths % 100, 2);
    put(&text, '.');
    put_whole(&text, hundredths / 100);
    if (coefficient < 0 && hundredths > 0)
        put(&text, '-');
    return keep(&text, 0, room, room_len);
}

plain_text plain_accounting(int64_t coefficient, uint32_t scale, uint16_t *room, size_t room_len)
{
    backward text;
    uint64_t hundredths = rounded(coefficient, scale, 2);
    bool negative = coefficient < 0;

    text.first = MOST;
    if (negative)
        put(&text, ')');
    put_digits(&text, hundredths % 100, 2);
    put(&text, '.');
    put_grouped(&text, hundredths / 100);
    if (negative)
        put(&text, '(');
    return keep(&text, negative ? RED : 0, room, room_len);
}

static uint32_t digits_of(uint64_t number)
{
    uint32_t count = 1;

    for (; number >= 10; number /= 10)
        count++;
    return count;
}

plain_text plain_general(int64_t coefficient, uint32_t scale, uint16_t *room, size_t room_len)
{
    backward text;
    uint32_t digits = digits_of(magnitude_of(coefficient) / power_of_ten[scale]);
    uint32_t decimals = digits < 10 ? 10 - digits : 0;
    uint64_t number = rounded(coefficient, scale, decimals);
    bool nought = number == 0;

    for (; decimals > 0 && number % 10 == 0; decimals--)
        number /= 10;
    text.first = MOST;
    if (decimals > 0) {
        put_digits(&text, number, decimals);
        put(&text, '.');
    }
    put_whole(&text, number / power_of_ten[decimals]);
    if (coefficient < 0 && !nought)
        put(&text, '-');
    return keep(&text, 0, room, room_len);
}

/* The magnitude to three digits, halves away from zero. */
static uint64_t three_digits(uint64_t magnitude, uint32_t digits)
{
    uint64_t unit;

    if (digits <= 3)
        return magnitude * power_of_ten[3 - digits];
    unit = power_of_ten[digits - 3];
    return (magnitude + unit / 2) / unit;
}

plain_text plain_scientific(int64_t coefficient, uint32_t scale, uint16_t *room, size_t room_len)
{
    backward text;
    uint64_t magnitude = magnitude_of(coefficient);
    uint32_t digits = digits_of(magnitude);
    uint64_t hundredths = three_digits(magnitude, digits);
    int exponent = magnitude == 0 ? 0 : (int)digits - 1 - (int)scale;

    if (hundredths == 1000) {
        hundredths = 100;
        exponent++;
    }
    text.first = MOST;
    put_digits(&text, (uint64_t)(exponent < 0 ? -exponent : exponent), 2);
    put(&text, exponent < 0 ? '-' : '+');
    put(&text, 'E');
    put_digits(&text, hundredths % 100, 2);
    put(&text, '.');
    put_whole(&text, hundredths / 100);
    if (coefficient < 0)
        put(&text, '-');
    return keep(&text, 0, room, room_len);
}

/* A fraction on one side of a number, and how far it is from it, times both denominators. */
typedef struct {
    uint64_t above, below, rest;
} side;

/* One side moved towards the other, as far as the number and the greatest denominator allow. */
static side moved(side near, side far)
{
    uint64_t steps = near.rest / far.rest, room = (BELOW_MOST - near.below) / far.below;
    side made;

    if (steps > room)
        steps = room;
    made.above = near.above + steps * far.above;
    made.below = near.below + steps * far.below;
    made.rest = near.rest - steps * far.rest;
    return made;
}

/* The fraction nearest to rest / unit, which is below 1: no other between two neighbours has a denominator below the sum of theirs. */
static side nearest(uint64_t rest, uint64_t unit)
{
    side low = {0, 1, rest}, high = {1, 1, unit - rest};

    while (low.rest > 0 && high.rest > 0 && low.below + high.below <= BELOW_MOST) {
        low = moved(low, high);
        if (low.rest > 0)
            high = moved(high, low);
    }
    return high.rest * low.below < low.rest * high.below ? high : low;
}

static void put_spaces(backward *text, size_t count)
{
    for (; count > 0; count--)
        put(text, ' ');
}

/* Above in three places with spaces in front, below with spaces behind; all of them and the solidus where there is nothing above. */
static void put_fraction(backward *text, const side *of)
{
    size_t end;

    if (of->above == 0) {
        put_spaces(text, 2 * FRACTION_PLACES + 1);
        return;
    }
    put_spaces(text, FRACTION_PLACES - digits_of(of->below));
    put_whole(text, of->below);
    put(text, '/');
    end = text->first - FRACTION_PLACES;
    put_whole(text, of->above);
    put_spaces(text, text->first - end);
}

plain_text plain_fraction(int64_t coefficient, uint32_t scale, uint16_t *room, size_t room_len)
{
    backward text;
    uint64_t magnitude = magnitude_of(coefficient), unit = power_of_ten[scale], whole = magnitude / unit;
    side part = nearest(magnitude % unit, unit);
    bool nought;

    if (part.above == part.below) {
        part.above = 0;
        whole++;
    }
    nought = whole == 0 && part.above == 0;
    text.first = MOST;
    put_fraction(&text, &part);
    put(&text, ' ');
    if (whole > 0)
        put_whole(&text, whole);
    if (coefficient < 0 && !nought)
        put(&text, '-');
    return keep(&text, 0, room, room_len);
}

plain_text plain_date(uint32_t day, uint32_t millisecond, uint16_t *room, size_t room_len)
{
    static const char names[] = "JanFebMarAprMayJunJulAugSepOctNovDec";
    backward text;
    date found = date_of(day);
    const char *name = names + 3 * (found.month - 1);

    (void)millisecond;
    text.first = MOST;
    put_digits(&text, found.year % 100, 2);
    put(&text, '-');
    put(&text, name[2]);
    put(&text, name[1]);
    put(&text, name[0]);
    put(&text, '-');
    put_whole(&text, found.day);
    return keep(&text, 0, room, room_len);
}

plain_text plain_clock(uint32_t day, uint32_t millisecond, uint16_t *room, size_t room_len)
{
    backward text;
    uint32_t second = millisecond / 1000;
    uint32_t hour = second / 3600;

    (void)day;
    text.first = MOST;
    put(&text, 'M');
    put(&text, hour < 12 ? 'A' : 'P');
    put(&text, ' ');
    put_digits(&text, second % 60, 2);
    put(&text, ':');
    put_digits(&text, second / 60 % 60, 2);
    put(&text, ':');
    put_whole(&text, hour % 12 == 0 ? 12 : hour % 12);
    return keep(&text, 0, room, room_len);
}

numfmt_put plain_handed(numfmt_board board, uint32_t length)
{
    numfmt_put put = {.board = board, .shown = {.length = length}};

    return put;
}
