//! Boards and rows to put and clear.

use crate::oracle::{Board, Row, ROWS};
use crate::random::Random;

/// Mostly the empty board; else one made by hand, whose numbers may be any.
pub fn board(random: &mut Random) -> Board {
    if random.chance(60) {
        return Board::empty();
    }
    let rows = (0..ROWS).map(|_| row_numbers(random)).collect();
    let widest = length(random);
    Board { rows, widest }
}

/// Half of the rows are as a call leaves an empty one.
fn row_numbers(random: &mut Random) -> Row {
    if random.chance(50) {
        return Row::default();
    }
    Row {
        filled: random.pick(&[0, 1, 1, 1, 2, 255]),
        length: length(random),
        colour: random.unit(),
    }
}

fn length(random: &mut Random) -> u32 {
    match random.below(10) {
        0 => random.next() as u32,
        1 => u32::MAX - random.below(2) as u32,
        _ => random.below(30) as u32,
    }
}

/// A few rows again and again, so that they are put over and cleared; now and then one that is none.
pub fn row(random: &mut Random) -> u32 {
    match random.weighted(&[70, 20, 6, 4]) {
        0 => random.pick(&[0, 1, 2, 62, 63]),
        1 => random.below(ROWS) as u32,
        2 => random.pick(&[64, 65, 255, 256, 65_536, u32::MAX]),
        _ => random.next() as u32,
    }
}
