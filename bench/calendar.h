/* The date of a day number, 0 to 2,958,465. Inline, since the hand-written formatter would have it so. */
#ifndef CALENDAR_H
#define CALENDAR_H

#include <stdint.h>

typedef struct {
    uint32_t year, month, day;
} date;

/*
 * Counts from 1 March of year 0, so that the leap day is the last of its year:
 * the month then follows from the day of the year by one division.
 */
static inline date gregorian(uint32_t since_march)
{
    uint32_t era = since_march / 146097;
    uint32_t day_of_era = since_march % 146097;
    uint32_t year_of_era =
        (day_of_era - day_of_era / 1460 + day_of_era / 36524 - day_of_era / 146096) / 365;
    uint32_t day_of_year = day_of_era - (365 * year_of_era + year_of_era / 4 - year_of_era / 100);
    uint32_t month = (5 * day_of_year + 2) / 153;
    date found;

    found.day = day_of_year - (153 * month + 2) / 5 + 1;
    found.month = month < 10 ? month + 3 : month - 9;
    found.year = era * 400 + year_of_era + (month < 10 ? 0 : 1);
    return found;
}

/* Day 0 is 0 January 1900, and day 60 is a 29 February that never was. */
static inline date date_of(uint32_t day)
{
    static const date nought = {1900, 1, 0};
    static const date never = {1900, 2, 29};

    if (day == 0)
        return nought;
    if (day == 60)
        return never;
    return gregorian(day < 60 ? day + 693900 : day + 693899);
}

#endif
