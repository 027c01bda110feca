//! The library's calls as the comparison sees them: lent slices in, plain results out.

use crate::oracle::{self, answer, Board, Reading, Reason, Value};

#[derive(Clone, Copy, Debug, PartialEq, Eq)]
pub struct Prepared {
    pub answer: u16,
    pub place: u32,
    pub words: u32,
}

#[derive(Clone, Copy, Debug, PartialEq, Eq)]
pub struct Shown {
    pub answer: u16,
    pub length: u32,
    pub colour: u16,
    pub section: u16,
    pub exact: u16,
}

/// Why a showing gives what it does; on a refusal every number but the answer is 0.
#[derive(Clone, Copy, Debug, PartialEq, Eq)]
pub struct Why {
    pub answer: u16,
    pub section: u16,
    pub choice: u16,
    pub tried: [u16; 2],
    pub minus: u16,
    pub cut: u16,
}

#[derive(Clone, Copy, Debug, PartialEq, Eq)]
pub struct Part {
    pub start: u32,
    pub length: u32,
}

/// Units that a stream keeps.
pub const KEPT: usize = 254;

/// The numbers of a stream.
#[derive(Clone, Debug, PartialEq, Eq)]
pub struct Held {
    pub units: [u16; KEPT],
    pub count: u16,
    pub ended: u16,
}

impl Held {
    pub fn start() -> Held {
        Held {
            units: [0; KEPT],
            count: 0,
            ended: 0,
        }
    }
}

/// A code that comes in parts.
pub trait Stream {
    /// Answer and place.
    fn feed(&mut self, part: &[u16]) -> (u16, u32);
    fn end(&mut self, table: &mut [u16]) -> Prepared;
    fn held(&self) -> Held;
}

pub trait Calls {
    fn prepare(&self, code: &[u16], table: &mut [u16]) -> Prepared;
    fn start(&self) -> Held;
    fn stream(&self, from: &Held) -> Box<dyn Stream>;
    fn section(&self, code: &[u16], n: u32) -> Part;
    fn check(&self, table: &[u16]) -> u16;
    fn show(&self, table: &[u16], value: &Value, room: &mut [u16]) -> Shown;
    fn why(&self, table: &[u16], value: &Value, room_length: usize) -> Why;
    fn empty(&self) -> Board;
    fn put(
        &self,
        board: &Board,
        row: u32,
        table: &[u16],
        value: &Value,
        room: &mut [u16],
    ) -> (Board, Shown);
    fn clear(&self, board: &Board, row: u32) -> (Board, u16);
}

/// The oracle behind the same calls. Run against it, the comparison checks itself, and the oracle's
/// reading of tables against its reading off codes.
pub struct Oracle;

/// The oracle's stream keeps the whole code, however long it grows, beside the numbers.
struct Joined {
    code: Vec<u16>,
    held: Held,
}

impl Stream for Joined {
    fn feed(&mut self, part: &[u16]) -> (u16, u32) {
        if self.held.ended != 0 {
            return (answer::ENDED, 0);
        }
        self.code.extend(part);
        let came = usize::from(self.held.count);
        for (at, unit) in (came..KEPT).zip(part) {
            self.held.units[at] = *unit;
        }
        self.held.count = (came + part.len()).min(KEPT + 1) as u16;
        (answer::DONE, 0)
    }

    fn end(&mut self, table: &mut [u16]) -> Prepared {
        if self.held.ended != 0 {
            return Prepared {
                answer: answer::ENDED,
                place: 0,
                words: 0,
            };
        }
        self.held.ended = 1;
        Oracle.prepare(&self.code, table)
    }

    fn held(&self) -> Held {
        self.held.clone()
    }
}

impl Calls for Oracle {
    fn prepare(&self, code: &[u16], table: &mut [u16]) -> Prepared {
        let prepared = oracle::prepare(code, table.len());
        table[..prepared.words.len()].copy_from_slice(&prepared.words);
        Prepared {
            answer: prepared.answer,
            place: prepared.place,
            words: prepared.words.len() as u32,
        }
    }

    fn start(&self) -> Held {
        Held::start()
    }

    /// Units that are counted and not kept are any: the code is too long whatever they are.
    fn stream(&self, from: &Held) -> Box<dyn Stream> {
        let mut code = from.units.to_vec();
        code.resize(usize::from(from.count), 0);
        let held = from.clone();
        Box::new(Joined { code, held })
    }

    fn section(&self, code: &[u16], n: u32) -> Part {
        let (start, length) = oracle::section(code, n);
        Part { start, length }
    }

    fn check(&self, table: &[u16]) -> u16 {
        if oracle::check_table(table) {
            answer::DONE
        } else {
            answer::TABLE
        }
    }

    fn show(&self, table: &[u16], value: &Value, room: &mut [u16]) -> Shown {
        in_room(&oracle::show(table, value, room.len()), room)
    }

    fn why(&self, table: &[u16], value: &Value, room_length: usize) -> Why {
        why_of(&oracle::show_why(table, value, room_length))
    }

    fn empty(&self) -> Board {
        Board::empty()
    }

    fn put(
        &self,
        board: &Board,
        row: u32,
        table: &[u16],
        value: &Value,
        room: &mut [u16],
    ) -> (Board, Shown) {
        let (board, shown) = board.put(row, table, value, room.len());
        (board, in_room(&shown, room))
    }

    fn clear(&self, board: &Board, row: u32) -> (Board, u16) {
        board.clear(row)
    }
}

/// Writes the text in front of the room.
fn in_room(shown: &Result<Reading, u16>, room: &mut [u16]) -> Shown {
    if let Ok(reading) = shown {
        room[..reading.text.len()].copy_from_slice(&reading.text);
    }
    shown_of(shown)
}

/// What a show returns for what the oracle gives.
pub fn shown_of(shown: &Result<Reading, u16>) -> Shown {
    match shown {
        Ok(reading) => Shown {
            answer: answer::DONE,
            length: reading.text.len() as u32,
            colour: reading.colour,
            section: reading.section,
            exact: u16::from(reading.exact),
        },
        Err(answer) => refused(*answer),
    }
}

/// A reason as the call returns it.
pub fn why_of(why: &Result<Reason, u16>) -> Why {
    match why {
        Ok(reason) => Why {
            answer: answer::DONE,
            section: reason.section,
            choice: reason.choice,
            tried: reason.tried,
            minus: reason.minus,
            cut: reason.cut,
        },
        Err(answer) => Why {
            answer: *answer,
            section: 0,
            choice: 0,
            tried: [0, 0],
            minus: 0,
            cut: 0,
        },
    }
}

/// On a refusal every number but the answer is 0.
pub fn refused(answer: u16) -> Shown {
    Shown {
        answer,
        length: 0,
        colour: 0,
        section: 0,
        exact: 0,
    }
}
