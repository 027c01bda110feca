//! The board of a wall, by 02's P7: what stands in each row, and the width that layout wants.

use super::{answer, show, Reading, Value};

pub const ROWS: usize = 64;

/// A row by its three numbers; where `filled` is 0 it is empty.
#[derive(Clone, Copy, Debug, Default, PartialEq, Eq)]
pub struct Row {
    pub filled: u8,
    pub length: u32,
    pub colour: u16,
}

#[derive(Clone, Debug, PartialEq, Eq)]
pub struct Board {
    pub rows: Vec<Row>,
    pub widest: u32,
}

impl Board {
    pub fn empty() -> Board {
        Board {
            rows: vec![Row::default(); ROWS],
            widest: 0,
        }
    }

    /// The width is told by the rows alone, whatever it was.
    fn with(&self, row: u32, new: Row) -> Board {
        let mut rows = self.rows.clone();
        rows[row as usize] = new;
        let filled = rows.iter().filter(|row| row.filled != 0);
        let widest = filled.map(|row| row.length).max().unwrap_or(0);
        Board { rows, widest }
    }

    /// What putting hands back: the board, and what the show gave.
    pub fn put(
        &self,
        row: u32,
        table: &[u16],
        value: &Value,
        room: usize,
    ) -> (Board, Result<Reading, u16>) {
        if row as usize >= ROWS {
            return (self.clone(), Err(answer::ROW));
        }
        let shown = show(table, value, room);
        let board = match &shown {
            Ok(reading) => {
                let new = Row {
                    filled: 1,
                    length: reading.text.len() as u32,
                    colour: reading.colour,
                };
                self.with(row, new)
            }
            Err(_) => self.clone(),
        };
        (board, shown)
    }

    /// What clearing hands back: the board, and the answer.
    pub fn clear(&self, row: u32) -> (Board, u16) {
        if row as usize >= ROWS {
            return (self.clone(), answer::ROW);
        }
        (self.with(row, Row::default()), answer::DONE)
    }
}
