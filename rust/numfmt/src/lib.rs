//! Prepares a SpreadsheetML number format code into a table, and shows a value through the table. The work is done by a
//! library in Rattle whose promises are proved; this crate links its archive `libc_api.a` (`tools/archive` makes it)
//! and keeps for its callers the duties that include/numfmt.h lays on them.
//!
//! ```
//! use numfmt::Table;
//!
//! let table = Table::prepare("#,##0\" salmon\"")?;
//! assert_eq!(table.show_number(12408, 0)?.text, "12,408 salmon");
//! assert_eq!(table.show_number(-3, 1)?.text, "0 salmon");
//! # Ok::<(), numfmt::Refusal>(())
//! ```
//!
//! [`Table`] owns its words and takes and gives strings. A [`Board`] keeps the lengths and colours of a wall's rows, and the width that they
//! need. A [`Stream`] takes a code that arrives in parts. [`calls`] are the C calls themselves on lent slices of units.
//! A table is only read by showing, so that many threads may show by one.

mod answer;
mod board;
pub mod calls;
mod stream;
mod table;

pub use answer::{Answer, Refusal};
pub use board::Board;
pub use stream::Stream;
pub use table::{byte_of_unit, section, Shown, Table, Value};

/// Words of table room that hold the table of every accepted code.
pub const TABLE_WORDS: usize = 557;
/// Most units of a code.
pub const CODE_MOST: usize = 254;
/// Most units of a text value.
pub const TEXT_MOST: usize = 1024;
/// Rows of a board.
pub const BOARD_ROWS: usize = 64;
