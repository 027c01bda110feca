//! Values as people write them.

use numfmt::Value;

#[derive(Clone, Copy, Debug, PartialEq, Eq)]
pub enum Kind {
    Number,
    Instant,
    Text,
}

impl Kind {
    pub fn named(word: &str) -> Option<Kind> {
        [Kind::Number, Kind::Instant, Kind::Text]
            .into_iter()
            .find(|kind| kind.name() == word)
    }

    pub fn name(self) -> &'static str {
        match self {
            Kind::Number => "number",
            Kind::Instant => "instant",
            Kind::Text => "text",
        }
    }
}

/// Why a value can't be read.
#[derive(Clone, Copy, Debug, PartialEq, Eq)]
pub enum Misread {
    Number,
    /// The same where no kind was named, and a text may be meant.
    NumberOrText,
    Instant,
    Day,
    Time,
}

impl Misread {
    pub fn text(self) -> &'static str {
        match self {
            Misread::Number => {
                "No number. A number is an optional minus, digits, and optionally a point and digits, as 1000 or -0.5."
            }
            Misread::NumberOrText => {
                "No number. A number is an optional minus, digits, and optionally a point and digits, as 1000 or -0.5. \
                 For a text say text before it."
            }
            Misread::Instant => {
                "No instant. An instant is 2024-10-14, 2024-10-14 16:36, 2024-10-14 16:36:03.750 or day/millisecond."
            }
            Misread::Day => "No day of the calendar, which goes from 1900-01-01 to 9999-12-31.",
            Misread::Time => "No time of day, which goes from 00:00 to 23:59:59.999.",
        }
    }
}

pub fn read(kind: Option<Kind>, written: &str) -> Result<Value<'_>, Misread> {
    match kind {
        Some(Kind::Number) => number(written).ok_or(Misread::Number),
        Some(Kind::Instant) => instant(written).unwrap_or(Err(Misread::Instant)),
        Some(Kind::Text) => Ok(Value::Text(written)),
        None => guessed(written),
    }
}

fn guessed(written: &str) -> Result<Value<'_>, Misread> {
    if let Some(value) = number(written) {
        return Ok(value);
    }
    if let Some(read) = instant(written) {
        return read;
    }
    if is_like_a_number(written) {
        return Err(Misread::NumberOrText);
    }
    Ok(Value::Text(written))
}

/// Digits with a sign, points or commas, which a number is not written with: `.5`, `1,000`, `+5`.
fn is_like_a_number(written: &str) -> bool {
    let figures = written
        .strip_prefix(['+', '-', '\u{2212}'])
        .unwrap_or(written);
    figures.contains(|sign: char| sign.is_ascii_digit())
        && figures
            .chars()
            .all(|sign| sign.is_ascii_digit() || sign == '.' || sign == ',')
}

/// An optional minus, digits, and optionally a point and digits, whose count is the scale. A number too large to hold is held
/// at one that is out of range too.
pub fn number(written: &str) -> Option<Value<'static>> {
    let magnitude = written.strip_prefix('-').unwrap_or(written);
    let (whole, decimals) = magnitude.split_once('.').unwrap_or((magnitude, "0"));
    let scale = if magnitude.contains('.') {
        decimals.len()
    } else {
        0
    };
    if !all_digits(whole) || !all_digits(decimals) {
        return None;
    }
    let digits = whole.bytes().chain(decimals.bytes().take(scale));
    let coefficient = held(digits, i64::MAX as u64) as i64;
    Some(Value::Number {
        coefficient: if magnitude.len() < written.len() {
            -coefficient
        } else {
            coefficient
        },
        scale: u32::try_from(scale).unwrap_or(u32::MAX),
    })
}

/// `day/millisecond`; a number too large to hold is held at one that is out of range too.
pub fn day_and_millisecond(written: &str) -> Option<Value<'static>> {
    let (day, millisecond) = written.split_once('/')?;
    let held = |digits: &str| held(digits.bytes(), u64::from(u32::MAX)) as u32;
    (all_digits(day) && all_digits(millisecond)).then(|| Value::Instant {
        day: held(day),
        millisecond: held(millisecond),
    })
}

fn all_digits(text: &str) -> bool {
    !text.is_empty() && text.bytes().all(|byte| byte.is_ascii_digit())
}

/// The number that digits spell, `most` at most.
fn held(digits: impl Iterator<Item = u8>, most: u64) -> u64 {
    let add = |sum: u64, digit: u8| {
        sum.saturating_mul(10)
            .saturating_add(u64::from(digit - b'0'))
            .min(most)
    };
    digits.fold(0, add)
}

/// None for what is not written as an instant.
fn instant(written: &str) -> Option<Result<Value<'static>, Misread>> {
    day_and_millisecond(written)
        .map(Ok)
        .or_else(|| calendar(written))
}

/// A date, perhaps with a time of day behind a space or a T.
fn calendar(written: &str) -> Option<Result<Value<'static>, Misread>> {
    let (date, time) = written.split_once([' ', 'T']).unwrap_or((written, "00:00"));
    let (date, time) = (date_numbers(date)?, time_numbers(time)?);
    let day = day_number(date).ok_or(Misread::Day);
    Some(day.and_then(|day| {
        let millisecond = millisecond(time).ok_or(Misread::Time)?;
        Ok(Value::Instant { day, millisecond })
    }))
}

/// Year, month and day of `2024-10-14`.
fn date_numbers(date: &str) -> Option<[u32; 3]> {
    let mut parts = date.split('-');
    let numbers = [
        digits(parts.next()?, 4, 4)?,
        digits(parts.next()?, 2, 2)?,
        digits(parts.next()?, 2, 2)?,
    ];
    parts.next().is_none().then_some(numbers)
}

/// Hour, minute, second and millisecond of `16:36`, `16:36:03` or `16:36:03.750`.
fn time_numbers(time: &str) -> Option<[u32; 4]> {
    let (hour, rest) = time.split_once(':')?;
    let (minute, rest) = rest.split_once(':').unwrap_or((rest, "00"));
    let (second, part) = rest.split_once('.').unwrap_or((rest, "0"));
    let thousandths = digits(part, 1, 3)? * [100, 10, 1][part.len() - 1];
    Some([
        digits(hour, 1, 2)?,
        digits(minute, 2, 2)?,
        digits(second, 2, 2)?,
        thousandths,
    ])
}

/// The number that `least` to `most` digits spell.
fn digits(text: &str, least: usize, most: usize) -> Option<u32> {
    let fits = (least..=most).contains(&text.len()) && all_digits(text);
    fits.then(|| held(text.bytes(), u64::from(u32::MAX)) as u32)
}

/// Day 1 is 1 January 1900; the year 1900 has a 29 February, day 60.
fn day_number([year, month, day]: [u32; 3]) -> Option<u32> {
    if !(1900..=9999).contains(&year) || !(1..=12).contains(&month) {
        return None;
    }
    let years: u32 = 365 * (year - 1900) + leap_years_before(year);
    let months: u32 = (1..month).map(|month| month_days(year, month)).sum();
    (1..=month_days(year, month))
        .contains(&day)
        .then_some(years + months + day)
}

fn month_days(year: u32, month: u32) -> u32 {
    match month {
        2 if leap(year) => 29,
        2 => 28,
        4 | 6 | 9 | 11 => 30,
        _ => 31,
    }
}

fn leap(year: u32) -> bool {
    year == 1900 || (year % 4 == 0 && year % 100 != 0) || year % 400 == 0
}

/// From 1900 on, which is one here and in no other calendar.
fn leap_years_before(year: u32) -> u32 {
    let gregorian = |last: u32| last / 4 - last / 100 + last / 400;
    gregorian(year - 1) - gregorian(1899) + u32::from(year > 1900)
}

fn millisecond([hour, minute, second, thousandths]: [u32; 4]) -> Option<u32> {
    let fits = hour < 24 && minute < 60 && second < 60;
    fits.then_some(((hour * 60 + minute) * 60 + second) * 1000 + thousandths)
}

#[cfg(test)]
mod tests;
