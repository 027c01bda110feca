//! Document 01, "Days": the calendar and the clock, each piece as the text that it shows.

use super::names::{MONTHS, WEEKDAYS};

/// First day number of 1901; 1900 has 366 days, since day 60 is its 29 February.
const FIRST_OF_1901: u32 = 367;
const DAYS_OF_400_YEARS: u32 = 146_097;

struct Date {
    year: u32,
    /// From 0.
    month: usize,
    /// Of the month, from 1; 0 only on day 0.
    day: u32,
}

fn is_leap(year: u32) -> bool {
    let gregorian =
        year.is_multiple_of(4) && (!year.is_multiple_of(100) || year.is_multiple_of(400));
    gregorian || year == 1900
}

fn days_of_year(year: u32) -> u32 {
    if is_leap(year) {
        366
    } else {
        365
    }
}

fn days_of_month(year: u32, month: usize) -> u32 {
    match month {
        1 if is_leap(year) => 29,
        1 => 28,
        3 | 5 | 8 | 10 => 30,
        _ => 31,
    }
}

/// The year and the day of the year, from 1 (0 on day 0).
fn year_of(number: u32) -> (u32, u32) {
    if number < FIRST_OF_1901 {
        return (1900, number);
    }
    let since_1901 = number - FIRST_OF_1901;
    let mut year = 1901 + since_1901 / DAYS_OF_400_YEARS * 400;
    let mut left = since_1901 % DAYS_OF_400_YEARS;
    while left >= days_of_year(year) {
        left -= days_of_year(year);
        year += 1;
    }
    (year, left + 1)
}

fn date(number: u32) -> Date {
    let (year, mut day) = year_of(number);
    let mut month = 0;
    while day > days_of_month(year, month) {
        day -= days_of_month(year, month);
        month += 1;
    }
    Date { year, month, day }
}

/// A number zero-padded to `width`.
fn padded(number: u64, width: usize) -> String {
    format!("{number:0width$}")
}

pub fn year(number: u32, run: usize) -> String {
    let year = u64::from(date(number).year);
    padded(if run == 2 { year % 100 } else { year }, run)
}

pub fn month(number: u32, run: usize) -> String {
    let month = date(number).month;
    let name = MONTHS[month];
    match run {
        1 | 2 => padded(month as u64 + 1, run),
        3 => name[..3].to_string(),
        4 => name.to_string(),
        _ => name[..1].to_string(),
    }
}

pub fn day(number: u32, run: usize) -> String {
    let name = WEEKDAYS[number as usize % 7];
    match run {
        1 | 2 => padded(u64::from(date(number).day), run),
        3 => name[..3].to_string(),
        _ => name.to_string(),
    }
}

pub fn hour(ms: u32, run: usize, twelve: bool) -> String {
    let hour = u64::from(ms / 3_600_000);
    let shown = match (twelve, hour % 12) {
        (false, _) => hour,
        (true, 0) => 12,
        (true, other) => other,
    };
    padded(shown, run)
}

pub fn minute(ms: u32, run: usize) -> String {
    padded(u64::from(ms / 60_000 % 60), run)
}

pub fn second(ms: u32, run: usize) -> String {
    padded(u64::from(ms / 1000 % 60), run)
}

/// The point and the first `digits` digits of the part of a second, cut.
pub fn part_of_second(ms: u32, digits: usize) -> String {
    let thousandths = padded(u64::from(ms % 1000), 3);
    format!(".{}", &thousandths[..digits])
}

/// All whole hours, minutes or seconds since day 0.
pub fn elapsed(day: u32, ms: u32, letter: u8, run: usize) -> String {
    let unit = match letter {
        b'h' => 3_600_000,
        b'm' => 60_000,
        _ => 1000,
    };
    let since = u64::from(day) * 86_400_000 + u64::from(ms);
    padded(since / unit, run)
}

pub fn half_day(ms: u32, long: bool) -> &'static str {
    match (ms < 43_200_000, long) {
        (true, true) => "AM",
        (true, false) => "A",
        (false, true) => "PM",
        (false, false) => "P",
    }
}
