//! Fraction sections.

use super::{count_to, literal, literals, maybe_literal, places, put};
use crate::oracle::units;
use crate::random::Random;

/// Digit runs and, at the end, what is none or too great.
const FIXED: [&str; 16] = [
    "1",
    "2",
    "3",
    "7",
    "8",
    "10",
    "16",
    "64",
    "100",
    "512",
    "625",
    "999",
    "80",
    "1000",
    "100000000000000000000",
    "08",
];

/// What may not stand in a fraction, or not everywhere.
const FOREIGN: [&str; 16] = [
    ".", ",", "%", "E+", "E-", "@", "General", "d", "s.0", "A/P", "0", "8", "/", "/8", "?/?", "_x",
];

/// Perhaps integer places and a literal, a numerator, a solidus and what is below; about one in five is
/// broken.
pub fn fraction(random: &mut Random, out: &mut Vec<u16>) {
    let start = out.len();
    maybe_literal(random, out);
    if random.chance(55) {
        let integer = count_to(random, 4, 20).max(1);
        places(random, integer, false, out);
        parting(random, out);
    }
    let numerator = count_to(random, 3, 20).max(1);
    run(random, numerator, out);
    put(out, "/");
    if random.chance(40) {
        put(out, random.pick(&FIXED));
    } else {
        let denominator = random.pick(&[1, 1, 1, 1, 2, 2, 2, 2, 3, 3, 3, 4]);
        run(random, denominator, out);
    }
    literals(random, 1, out);
    if random.chance(10) {
        let at = random.between(start, out.len());
        out.splice(at..at, units(random.pick(&FOREIGN)));
    }
}

/// What parts integer places from a numerator: mostly a literal, now and then only a blank or a fill.
fn parting(random: &mut Random, out: &mut Vec<u16>) {
    if random.chance(60) {
        put(out, random.pick(&[" ", "-", "\" ft \"", "\\x", "/"]));
        maybe_literal(random, out);
    } else {
        literal(random, out);
        literals(random, 1, out);
    }
}

/// Places with nothing between, half of the time all alike.
fn run(random: &mut Random, count: usize, out: &mut Vec<u16>) {
    let mark = random.pick(b"0#??");
    let mixed = random.chance(50);
    for _ in 0..count {
        let place = if mixed { random.pick(b"0#?") } else { mark };
        out.push(u16::from(place));
    }
}
