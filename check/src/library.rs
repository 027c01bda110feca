//! The linked library behind the comparison's calls.

use numfmt::calls;

use crate::calls::{Calls, Held, Part, Prepared, Shown, Stream, Why};
use crate::oracle::{Board, Row, Value, ROWS};

/// The linked library.
pub struct Linked;

fn prepared(given: calls::Prepared) -> Prepared {
    Prepared {
        answer: given.answer,
        place: given.place,
        words: given.words,
    }
}

impl Stream for calls::Stream {
    fn feed(&mut self, part: &[u16]) -> (u16, u32) {
        let given = calls::stream_feed(*self, part);
        *self = given.stream;
        (given.answer, given.place)
    }

    fn end(&mut self, table: &mut [u16]) -> Prepared {
        let given = calls::stream_end(*self, table);
        *self = given.stream;
        prepared(given.prepared)
    }

    fn held(&self) -> Held {
        Held {
            units: self.units,
            count: self.count,
            ended: self.ended,
        }
    }
}

impl Calls for Linked {
    fn prepare(&self, code: &[u16], table: &mut [u16]) -> Prepared {
        prepared(calls::prepare(code, table))
    }

    fn start(&self) -> Held {
        calls::stream_start().held()
    }

    fn stream(&self, from: &Held) -> Box<dyn Stream> {
        Box::new(calls::Stream {
            units: from.units,
            count: from.count,
            ended: from.ended,
        })
    }

    fn section(&self, code: &[u16], n: u32) -> Part {
        let given = calls::section(code, n);
        Part {
            start: given.start,
            length: given.length,
        }
    }

    fn check(&self, table: &[u16]) -> u16 {
        calls::check(table)
    }

    fn show(&self, table: &[u16], value: &Value, room: &mut [u16]) -> Shown {
        let given = match value {
            Value::Number { coefficient, scale } => {
                calls::show_number(table, *coefficient, *scale, room)
            }
            Value::Instant { day, ms } => calls::show_instant(table, *day, *ms, room),
            Value::Text(text) => calls::show_text(table, text, room),
        };
        shown(given)
    }

    fn why(&self, table: &[u16], value: &Value, room_length: usize) -> Why {
        let given = match value {
            Value::Number { coefficient, scale } => {
                calls::why_number(table, *coefficient, *scale, room_length)
            }
            Value::Instant { day, ms } => calls::why_instant(table, *day, *ms, room_length),
            Value::Text(text) => calls::why_text(table, text, room_length),
        };
        Why {
            answer: given.answer,
            section: given.section,
            choice: given.choice,
            tried: [given.first, given.second],
            minus: given.minus,
            cut: given.cut,
        }
    }

    fn empty(&self) -> Board {
        rows(&calls::board_empty())
    }

    fn put(
        &self,
        board: &Board,
        row: u32,
        table: &[u16],
        value: &Value,
        room: &mut [u16],
    ) -> (Board, Shown) {
        let board = columns(board);
        let given = match value {
            Value::Number { coefficient, scale } => {
                calls::board_put_number(board, row, table, *coefficient, *scale, room)
            }
            Value::Instant { day, ms } => {
                calls::board_put_instant(board, row, table, *day, *ms, room)
            }
            Value::Text(text) => calls::board_put_text(board, row, table, text, room),
        };
        (rows(&given.board), shown(given.shown))
    }

    fn clear(&self, board: &Board, row: u32) -> (Board, u16) {
        let given = calls::board_clear(columns(board), row);
        (rows(&given.board), given.answer)
    }
}

fn shown(given: calls::Shown) -> Shown {
    Shown {
        answer: given.answer,
        length: given.length,
        colour: given.colour,
        section: given.section,
        exact: given.exact,
    }
}

/// The oracle's board has its numbers by rows, the library's by columns.
fn rows(given: &calls::Board) -> Board {
    let row = |at: usize| Row {
        filled: given.filled[at],
        length: given.length[at],
        colour: given.colour[at],
    };
    Board {
        rows: (0..ROWS).map(row).collect(),
        widest: given.widest,
    }
}

fn columns(board: &Board) -> calls::Board {
    calls::Board {
        filled: std::array::from_fn(|at| board.rows[at].filled),
        length: std::array::from_fn(|at| board.rows[at].length),
        colour: std::array::from_fn(|at| board.rows[at].colour),
        widest: board.widest,
    }
}
