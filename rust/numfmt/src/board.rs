//! Boards: the lengths and colours of a wall's rows, and the widest of them.

use crate::table::{in_room, units};
use crate::{calls, Refusal, Shown, Table, Value};

/// Sixty-four rows, each empty or with the length and colour last shown there, and the width that they need.
///
/// ```
/// use numfmt::{Answer, Board, Table, Value};
///
/// let table = Table::prepare("#,##0")?;
/// let number = |coefficient| Value::Number { coefficient, scale: 0 };
/// let mut board = Board::empty();
/// assert_eq!(board.put(0, &table, &number(12000))?.text, "12,000");
/// board.put(1, &table, &number(7))?;
/// assert_eq!(board.widest(), 6);
/// board.clear(0)?;
/// assert_eq!((board.widest(), board.row(0), board.row(1)), (1, None, Some((1, 0))));
/// assert_eq!(board.clear(64).unwrap_err().answer, Answer::Row);
/// # Ok::<(), numfmt::Refusal>(())
/// ```
#[derive(Clone, Debug, PartialEq, Eq)]
pub struct Board(calls::Board);

impl Board {
    pub fn empty() -> Board {
        Board(calls::board_empty())
    }

    /// Shows a value through a table, and puts the text's length, in units, and colour into the row. Refuses with 16 for a row of 64 or
    /// above, then as [`Table::show`] does; the board is then as it was.
    pub fn put(&mut self, row: u32, table: &Table, value: &Value) -> Result<Shown, Refusal> {
        let words = table.words();
        let text = match *value {
            Value::Text(text) => units(text),
            _ => Vec::new(),
        };
        in_room(|room| {
            let put = match *value {
                Value::Number { coefficient, scale } => {
                    calls::board_put_number(self.0, row, words, coefficient, scale, room)
                }
                Value::Instant { day, millisecond } => {
                    calls::board_put_instant(self.0, row, words, day, millisecond, room)
                }
                Value::Text(_) => calls::board_put_text(self.0, row, words, &text, room),
            };
            self.0 = put.board;
            put.shown
        })
    }

    /// Empties a row. Refuses with 16 for a row of 64 or above.
    pub fn clear(&mut self, row: u32) -> Result<(), Refusal> {
        let cleared = calls::board_clear(self.0, row);
        self.0 = cleared.board;
        Refusal::told(cleared.answer, 0)
    }

    /// The greatest length of the rows that are filled; 0 where all are empty.
    pub fn widest(&self) -> u32 {
        self.0.widest
    }

    /// The length and colour last shown in a row; none where it is empty, or no row of the board.
    pub fn row(&self, row: usize) -> Option<(u32, u16)> {
        let filled = self.0.filled.get(row).is_some_and(|filled| *filled != 0);
        filled.then(|| (self.0.length[row], self.0.colour[row]))
    }
}
