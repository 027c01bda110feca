//! A second, plain implementation of the rules of document 01 and of 02's requests so far, written
//! from the papers.
//!
//! It shares no code with the library. Clarity goes before speed: vectors, 128-bit numbers, one
//! function to a rule. A code is read in two ways: straight off its own tokens (`reading`) and
//! through the table prepared from it (`prepare`, then `show`). Both start from the same parsed
//! sections (`code`) and use the same calendar (`days`); choice, rounding, whether it was exact,
//! exponents, fractions and figures are separate.

mod board;
mod code;
mod days;
mod decimal;
mod figures;
mod fraction;
mod names;
mod prepare;
mod program;
mod reading;
mod rules;
mod show;
mod table;
mod token;
mod value;

#[cfg(test)]
mod tests;

pub use board::{Board, Row, ROWS};
pub use code::section;
pub use prepare::{prepare, Prepared};
pub use program::{answer_lines, answer_lines_and_section, asked_why, PROGRAM_TABLE_WORDS};
pub use reading::{read, read_why};
pub use rules::check_table;
pub use show::{show, show_why};
pub use value::{Reading, Reason, Value};

/// The paper's answer numbers.
pub mod answer {
    pub const DONE: u16 = 0;
    pub const CODE_LENGTH: u16 = 1;
    pub const TOKEN: u16 = 2;
    pub const SECTIONS: u16 = 3;
    pub const KIND: u16 = 4;
    pub const STANDING: u16 = 5;
    pub const LIMIT: u16 = 6;
    pub const TABLE_ROOM: u16 = 7;
    pub const TABLE: u16 = 8;
    pub const RANGE: u16 = 9;
    pub const NO_SECTION: u16 = 10;
    pub const SORT: u16 = 11;
    pub const GENERAL: u16 = 12;
    pub const TEXT_ROOM: u16 = 13;
    pub const LINE: u16 = 14;
    pub const ENDED: u16 = 15;
    pub const ROW: u16 = 16;
}

/// The units of an ASCII text.
pub fn units(text: &str) -> Vec<u16> {
    text.bytes().map(u16::from).collect()
}
