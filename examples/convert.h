/*
 * How a double becomes a number and a time_t an instant, as the library takes
 * them. Each returns 0, and writes nothing, for what the library has no value
 * for.
 */
#ifndef CONVERT_H
#define CONVERT_H

#include <stdint.h>
#include <stdio.h>
#include <time.h>

/*
 * The number nearest to a double, of fifteen digits or fifteen decimals,
 * whichever is reached first: 0.1 + 0.2 is 3 / 10^1, and less than half of
 * 10^-15 is 0. No number: NaN, the infinities, and what rounds to 10^15 or more.
 */
static inline int number_of_double(double x, int64_t *coefficient, uint32_t *scale)
{
    const int64_t too_large = INT64_C(1000000000000000);
    double size = x < 0 ? -x : x, bound = 1;
    int decimals = 15;
    int64_t digits = 0;
    char written[64];
    const char *at;

    if (!(size < 1e15))
        return 0;
    for (; size >= bound; bound *= 10)
        decimals--;
    snprintf(written, sizeof written, "%.*f", decimals, size);
    for (at = written; *at != '\0'; at++)
        if (*at >= '0' && *at <= '9')
            digits = 10 * digits + (*at - '0');
    for (; decimals > 0 && digits % 10 == 0; decimals--)
        digits /= 10;
    if (digits >= too_large)
        return 0;
    *coefficient = x < 0 ? -digits : digits;
    *scale = (uint32_t)decimals;
    return 1;
}

/*
 * The day and millisecond of a time in UTC, from 1 March 1900 to the end of
 * 9999. Before that the day numbers of the 1900 system are not those of the
 * calendar: day 60 is 29 February 1900, which there never was.
 */
static inline int instant_of_time(time_t time, uint32_t *day, uint32_t *millisecond)
{
    const int64_t day_seconds = 86400, day_of_1970 = 25569, first_day = 61, last_day = 2958465;
    const int64_t first = (first_day - day_of_1970) * day_seconds;
    const int64_t behind = (last_day + 1 - day_of_1970) * day_seconds;
    int64_t seconds;

    if (time < first || time >= behind)
        return 0;
    seconds = (int64_t)time - first;
    *day = (uint32_t)(first_day + seconds / day_seconds);
    *millisecond = (uint32_t)(seconds % day_seconds * 1000);
    return 1;
}

#endif
