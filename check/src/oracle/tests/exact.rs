//! 02's P10: whether the text tells the value exactly.

use super::{number, reading_both_ways};
use crate::oracle::{units, Value};

const MINUTE: u32 = 60_000;
const HOUR: u32 = 60 * MINUTE;

/// A millisecond of 5 January 1900.
fn at(ms: u32) -> Value {
    Value::Instant { day: 5, ms }
}

fn text(text: &str) -> Value {
    Value::Text(units(text))
}

fn assert_told(cases: &[(&str, Value, bool)]) {
    for (code, value, expected) in cases {
        let reading = reading_both_ways(code, value).expect("a shown value");
        assert_eq!(reading.exact, *expected, "{code} {value:?}");
    }
}

#[test]
fn numbers() {
    assert_told(&[
        ("0", number(40, 1), true),
        ("0", number(41, 1), false),
        ("0", number(-49, 2), false),
        ("#", number(4, 1), false),
        ("0;0", number(-3, 0), true),
        ("0;0", number(-31, 1), false),
        ("0.0", number(995, 2), false),
        ("0%", number(5, 1), true),
        ("0%", number(5, 3), false),
        ("0,", number(5000, 0), true),
        ("0,", number(5001, 0), false),
        ("0.000000000000000,,,,,", number(1, 15), false),
        ("0.000000000000000,,,,,%%%%%", number(999, 8), true),
    ]);
}

#[test]
fn scientific_numbers() {
    assert_told(&[
        ("0.0E+0", number(12, 0), true),
        ("0.0E+0", number(125, 0), false),
        ("0E+0", number(95, 1), false),
        ("0E+0", number(-1, 15), true),
        ("##0E+0", number(12_300_000, 0), false),
        ("##0E+0", number(123_000_000, 0), true),
        ("0E+0", number(0, 3), true),
    ]);
}

#[test]
fn general_numbers() {
    assert_told(&[
        ("General", number(123_456_789, 8), true),
        ("General", number(100_000_000_004, 11), false),
        ("General", number(15, 1), true),
        ("General", number(123_456_789_015, 1), false),
        ("@", number(12_345_678_901, 11), false),
        ("@", number(-15, 1), true),
    ]);
}

#[test]
fn fractions() {
    assert_told(&[
        ("# ?/?", number(3, 0), true),
        ("# ?/?", number(3001, 3), false),
        ("# ?/?", number(-35, 1), true),
        ("# ?/?", number(96, 2), false),
        ("?/?", number(96, 2), false),
        ("?/?", number(0, 0), true),
        ("?/?", number(4, 2), false),
        ("?/8", number(125, 2), true),
        ("# ?/8", number(3124, 3), false),
        ("# ?/8", number(3997, 3), false),
        ("# ?/100", number(1, 2), true),
        ("0/999", number(333_333_333_333_333, 15), false),
        ("0/999", number(999_999_999_999_999, 0), true),
    ]);
}

#[test]
fn clocks() {
    assert_told(&[
        ("s", at(5 * MINUTE), true),
        ("h s", at(5 * MINUTE), true),
        ("h", at(5 * MINUTE), false),
        ("[h]", at(5 * MINUTE), false),
        ("[h]", at(5 * HOUR), true),
        ("[m]", at(5 * MINUTE), true),
        ("h:mm", at(5 * MINUTE), true),
        ("h:mm", at(5 * MINUTE + 1), false),
        ("[ss]", at(5000), true),
        ("s", at(5100), false),
        ("s.0", at(5100), true),
        ("s.0", at(5110), false),
        ("[s].00", at(5110), true),
        ("s.0 s.000", at(1), true),
        ("s.000 s.0", at(1), true),
        ("s. h", at(1), false),
    ]);
}

#[test]
fn dates() {
    assert_told(&[
        ("yyyy", at(0), true),
        ("mmm", at(1), false),
        ("m", at(5 * MINUTE), false),
        ("h d m", at(5 * MINUTE), false),
        ("d AM/PM", at(0), true),
        ("d AM/PM", at(12 * HOUR), false),
    ]);
}

#[test]
fn texts_and_literal_sections() {
    assert_told(&[
        ("\"x\"", number(4, 1), true),
        ("\"x\"", at(1), true),
        ("0;", number(-4, 1), true),
        ("[>1];0", at(1), true),
        ("0.0", text("1.55"), true),
        ("@", text("1.55"), true),
        (";;;\"x\"", text("1.55"), true),
    ]);
}
