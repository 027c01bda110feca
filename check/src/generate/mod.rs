//! Codes, tables, values and rooms to compare on.

pub mod board;
pub mod code;
pub mod stream;
pub mod table;
pub mod value;

#[cfg(test)]
mod tests;

use crate::random::Random;

/// A room's length around that of what goes in: short by all or one, just right, and longer.
pub fn room(random: &mut Random, length: usize) -> usize {
    match random.weighted(&[10, 15, 25, 10, 20, 20]) {
        0 => 0,
        1 => length.saturating_sub(1),
        2 => length,
        3 => length + 1,
        4 => length + random.below(40),
        _ => random.below(length + 1),
    }
}

/// Numbers that conditions name and values lie at or beside: coefficient and scale.
pub const LANDMARKS: [(i64, u32); 14] = [
    (0, 0),
    (1, 0),
    (5, 1),
    (25, 1),
    (5, 0),
    (10, 0),
    (60, 0),
    (100, 0),
    (1, 6),
    (999_999, 6),
    (1_000_000, 0),
    (28_086_354_167, 6),
    (999_999_999, 0),
    (999_999_999_999_999, 6),
];
