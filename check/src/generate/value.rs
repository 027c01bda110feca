//! Values: at the edges of their ranges, beside what conditions name, round ones, at halves, midway
//! between fractions, and at random.

use crate::generate::LANDMARKS;
use crate::oracle::Value;
use crate::random::Random;

const GREATEST: i64 = 999_999_999_999_999;

const COEFFICIENTS: [i64; 11] = [
    0,
    1,
    9,
    GREATEST,
    GREATEST - 1,
    GREATEST + 1,
    100_000_000_000,
    99_999_999_999,
    999_999_999_999_995,
    100_000_000_000_000,
    i64::MAX,
];

const DAYS: [u32; 16] = [
    0,
    1,
    2,
    7,
    31,
    32,
    59,
    60,
    61,
    366,
    367,
    36_525,
    146_463,
    2_958_465,
    2_958_466,
    u32::MAX,
];

const MILLISECONDS: [u32; 13] = [
    0,
    1,
    999,
    1000,
    59_999,
    60_000,
    3_599_999,
    3_600_000,
    43_199_999,
    43_200_000,
    86_399_999,
    86_400_000,
    u32::MAX,
];

/// A day, an hour, a minute, a second and the parts of one that a code can show.
const UNITS: [u32; 6] = [86_400_000, 3_600_000, 60_000, 1000, 100, 10];

/// Thousands, ones, and parts of few decimals down to sixteenths.
const STEPS: [(i64, u32); 9] = [
    (1_000_000, 0),
    (1000, 0),
    (1, 0),
    (5, 1),
    (2, 1),
    (25, 2),
    (1, 2),
    (125, 3),
    (625, 4),
];

const TEXT_LENGTHS: [usize; 5] = [0, 1, 1023, 1024, 1025];

/// Numbers to which two fractions are equally near: 3/8 and 2/5, 145/512 and 177/625, and what is left
/// of 1.
const TIES: [(i64, u32); 4] = [
    (3875, 4),
    (6125, 4),
    (2_832_015_625, 10),
    (7_167_984_375, 10),
];

pub fn value(random: &mut Random) -> Value {
    match random.weighted(&[60, 28, 12]) {
        0 => number(random),
        1 => instant(random),
        _ => text(random),
    }
}

pub fn number(random: &mut Random) -> Value {
    let (coefficient, scale) = match random.weighted(&[12, 16, 16, 20, 16, 9, 9, 2]) {
        0 => (random.pick(&COEFFICIENTS), random.between(0, 16) as u32),
        1 => beside_landmark(random),
        2 => half(random),
        3 => (digits(random, 15), random.between(0, 15) as u32),
        4 => round(random),
        5 => nines(random),
        6 => between_fractions(random),
        _ => (
            random.next() as i64,
            random.pick(&[0, 15, 16, 17, 100, u32::MAX]),
        ),
    };
    let negative = random.chance(45);
    Value::Number {
        coefficient: if negative {
            coefficient.wrapping_neg()
        } else {
            coefficient
        },
        scale,
    }
}

/// A coefficient of up to `most` digits, every length as likely.
fn digits(random: &mut Random, most: usize) -> i64 {
    let length = random.between(0, most) as u32;
    (random.next() % 10u64.pow(length)) as i64
}

/// The same number, perhaps written with more decimals.
fn lengthened(random: &mut Random, (mut coefficient, mut scale): (i64, u32)) -> (i64, u32) {
    while scale < 15 && coefficient <= GREATEST / 10 && random.chance(60) {
        coefficient *= 10;
        scale += 1;
    }
    (coefficient, scale)
}

/// A number that conditions name, perhaps written with more decimals, perhaps one unit off.
fn beside_landmark(random: &mut Random) -> (i64, u32) {
    let landmark = random.pick(&LANDMARKS);
    let (coefficient, scale) = lengthened(random, landmark);
    let off = random.pick(&[0, 0, 1, -1]);
    (coefficient + off, scale)
}

/// Some steps of one size, which many codes show exactly, perhaps written with more decimals.
fn round(random: &mut Random) -> (i64, u32) {
    let (step, scale) = random.pick(&STEPS);
    let steps = digits(random, 6);
    lengthened(random, (steps * step, scale))
}

/// Figures that end on a half, just under one, or on nines that carry.
fn half(random: &mut Random) -> (i64, u32) {
    let front = digits(random, 8);
    let tail = random.pick(&[
        "5", "50", "500000", "49999", "4999999", "99999", "9999995", "05",
    ]);
    let joined = format!("{front}{tail}");
    let scale = random.between(0, 15) as u32;
    (joined.parse().unwrap_or(0), scale)
}

/// Nines, and behind them what lets them stand or carries: numbers beside a power of ten.
fn nines(random: &mut Random) -> (i64, u32) {
    let front = "9".repeat(random.between(0, 13));
    let tail = random.pick(&["", "4", "49", "5", "50", "6"]);
    let coefficient = format!("0{front}{tail}").parse().unwrap_or(0);
    (coefficient, random.between(0, 15) as u32)
}

/// A number at or beside the middle between two fractions, perhaps with a whole part.
fn between_fractions(random: &mut Random) -> (i64, u32) {
    let between = if random.chance(25) {
        random.pick(&TIES)
    } else {
        near_middle(random)
    };
    let (coefficient, scale) = lengthened(random, between);
    let whole = digits(random, 15 - scale as usize);
    let off = random.pick(&[0, 0, 1, -1]);
    (whole * 10i64.pow(scale) + coefficient + off, scale)
}

/// The middle between two neighbours, cut off after some decimals.
fn near_middle(random: &mut Random) -> (i64, u32) {
    let (top, bottom) = if random.chance(30) {
        let fixed = random.pick(&[1, 2, 8, 16, 100, 999]);
        (2 * random.below(fixed) + 1, 2 * fixed)
    } else {
        let (low, high) = neighbours(random);
        (low.0 * high.1 + high.0 * low.1, 2 * low.1 * high.1)
    };
    let scale = random.between(1, 15) as u32;
    let middle = top as i128 * 10i128.pow(scale) / bottom as i128;
    (middle as i64, scale)
}

/// Two fractions with none between of a denominator that one, two or three places hold.
fn neighbours(random: &mut Random) -> ((usize, usize), (usize, usize)) {
    let most = random.pick(&[9, 99, 999]);
    let (mut low, mut high) = ((0, 1), (1, 1));
    while low.1 + high.1 <= most {
        let between = (low.0 + high.0, low.1 + high.1);
        match random.below(2) {
            0 => low = between,
            _ => high = between,
        }
    }
    (low, high)
}

pub fn instant(random: &mut Random) -> Value {
    let day = match random.weighted(&[40, 30, 30]) {
        0 => random.pick(&DAYS),
        1 => random.below(2_958_466) as u32,
        _ => year_edge(random),
    };
    let ms = match random.weighted(&[30, 35, 35]) {
        0 => random.pick(&MILLISECONDS),
        1 => full_units(random),
        _ => random.below(86_400_000) as u32,
    };
    Value::Instant { day, ms }
}

/// Midnight, a full hour, minute, second, tenth or hundredth.
fn full_units(random: &mut Random) -> u32 {
    let unit = random.pick(&UNITS);
    unit * random.below((86_400_000 / unit) as usize) as u32
}

/// A day around a turn of the year or the end of a February.
fn year_edge(random: &mut Random) -> u32 {
    let years = random.between(1, 8099) as u32;
    let near = years * 365 + years / 4 - years / 100 + years / 400;
    let offset = if random.chance(50) { 0 } else { 59 };
    near + offset + random.below(5) as u32
}

fn text(random: &mut Random) -> Value {
    let length = match random.weighted(&[30, 70]) {
        0 => random.pick(&TEXT_LENGTHS),
        _ => random.below(20),
    };
    Value::Text((0..length).map(|_| random.unit()).collect())
}
