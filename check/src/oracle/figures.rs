//! Document 01, "Figures": the rounded number as digits by value, 25 before the point and 15 after.

use std::cmp::Ordering;

use super::fraction::Denominator;

const DECIMALS: u32 = 15;

/// A rounded magnitude: its whole part, its fraction in units of 10^-15, whether it equals the exact
/// one, and how many decimals it lacks to do so.
pub struct Figures {
    whole: i128,
    fraction: i128,
    pub exact: bool,
    pub cut: u16,
}

/// |coefficient| * 10^exponent rounded to `decimals` decimals, halves away from zero.
/// The whole part and the rest are kept apart, since together they can pass 128 bits.
pub fn rounded(coefficient: i64, exponent: i32, decimals: u32) -> Figures {
    let magnitude = i128::from(coefficient.unsigned_abs());
    let above = 10i128.pow(exponent.max(0) as u32);
    let below = 10i128.pow((-exponent).max(0) as u32);
    let mut whole = magnitude * above / below;
    let rest = magnitude * above % below;
    let unit = 10i128.pow(decimals);
    let mut fraction = (2 * rest * unit + below) / (2 * below);
    let exact = fraction * below == rest * unit;
    let cut = missing(rest * unit % below, below);
    if fraction == unit {
        whole += 1;
        fraction = 0;
    }
    fraction *= 10i128.pow(DECIMALS - decimals);
    Figures {
        whole,
        fraction,
        exact,
        cut,
    }
}

/// How many decimals rest / below has, which is below 1: tens are taken until nothing is left.
fn missing(mut rest: i128, below: i128) -> u16 {
    let mut count = 0;
    while rest > 0 {
        rest = rest * 10 % below;
        count += 1;
    }
    count
}

/// The exponent of a scientific section with `places` integer places, found from above: from a
/// multiple of `places` that leaves at most one integer digit down, as long as the next lower one
/// leaves no more than `places`.
pub fn exponent(coefficient: i64, scale: u32, places: i32, decimals: u32) -> i32 {
    if coefficient == 0 {
        return 0;
    }
    let scale = scale as i32;
    let leaves_few = |exponent: i32| {
        let shift = -scale - exponent;
        // Beyond 10^22 every coefficient has more digits than any section has places.
        shift <= 22 && rounded(coefficient, shift, decimals).integer_digits() <= places
    };
    // A coefficient is below 10^15.
    let mut exponent = (15 - scale + places - 1) / places * places;
    while leaves_few(exponent - places) {
        exponent -= places;
    }
    exponent
}

/// Numerator and denominator for part / unit, which is below 1: over a fixed number the nearest
/// numerator, halves up, else the fraction that is found between mediants.
pub fn fraction(part: i128, unit: i128, below: Denominator) -> (i128, i128) {
    match below {
        Denominator::Fixed(number) => {
            let number = i128::from(number);
            ((2 * part * number + unit) / (2 * unit), number)
        }
        Denominator::Places(places) => nearest(part, unit, 10i128.pow(places as u32) - 1),
    }
}

/// The nearest fraction of a denominator up to `most`, the smaller one of two: mediants narrow the
/// span from 0/1 to 1/1 as long as their denominators are allowed, and one end of what is left is it.
fn nearest(part: i128, unit: i128, most: i128) -> (i128, i128) {
    let (mut low, mut high) = ((0, 1), (1, 1));
    while low.1 + high.1 <= most {
        let between = (low.0 + high.0, low.1 + high.1);
        match (part * between.1).cmp(&(between.0 * unit)) {
            Ordering::Less => high = between,
            Ordering::Greater => low = between,
            Ordering::Equal => return between,
        }
    }
    let above_low = (part * low.1 - low.0 * unit) * high.1;
    let under_high = (high.0 * unit - part * high.1) * low.1;
    match above_low.cmp(&under_high) {
        Ordering::Less => low,
        Ordering::Greater => high,
        Ordering::Equal if low.1 < high.1 => low,
        Ordering::Equal => high,
    }
}

impl Figures {
    pub fn of_whole(whole: i128) -> Figures {
        Figures {
            whole,
            fraction: 0,
            exact: true,
            cut: 0,
        }
    }

    pub fn is_zero(&self) -> bool {
        self.whole == 0 && self.fraction == 0
    }

    /// The digit of 10^power.
    pub fn digit(&self, power: i32) -> u8 {
        let digit = match u32::try_from(power) {
            Ok(power) => self.whole / 10i128.pow(power) % 10,
            Err(_) => self.fraction / 10i128.pow((DECIMALS as i32 + power) as u32) % 10,
        };
        digit as u8
    }

    /// How many integer digits there are from the first nonzero one on.
    pub fn integer_digits(&self) -> i32 {
        let mut count = 0;
        while self.whole / 10i128.pow(count) > 0 {
            count += 1;
        }
        count as i32
    }

    /// A zero at 10^power that has no nonzero integer digit before it, or, behind the point, no
    /// nonzero digit after it.
    pub fn is_insignificant_zero(&self, power: i32) -> bool {
        let zero = |power| self.digit(power) == 0;
        if power >= 0 {
            (power..25).all(zero)
        } else {
            (-(DECIMALS as i32)..=power).all(zero)
        }
    }
}

/// General's text without a sign, and its figures; none where it reaches 10^11.
pub fn general(coefficient: i64, scale: u32) -> Option<(String, Figures)> {
    let exponent = -(scale as i32);
    if rounded(coefficient, exponent, 0).integer_digits() > 11 {
        return None;
    }
    let magnitude = coefficient.unsigned_abs() / 10u64.pow(scale);
    let integer_digits = magnitude.to_string().len() as u32;
    let decimals = 10u32.saturating_sub(integer_digits);
    let figures = rounded(coefficient, exponent, decimals);
    let all = format!("{}.{:015}", figures.whole, figures.fraction);
    let text = all.trim_end_matches('0').trim_end_matches('.');
    Some((text.to_string(), figures))
}
