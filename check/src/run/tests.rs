//! The comparison has to find faults: each double below is the oracle with one fault.

use super::make;
use crate::calls::{Calls, Held, Oracle, Part, Prepared, Shown, Stream, Why};
use crate::case::Counts;
use crate::oracle::{answer, Board, Row, Value};
use crate::random::Random;

const CASES: u64 = 20_000;

/// Whether some case tells the calls from the oracle.
fn found(calls: &dyn Calls) -> bool {
    let mut counts = Counts::default();
    (0..CASES).any(|index| {
        let case = make(&mut Random::for_case(1, index));
        case.check(calls, &mut counts).is_err()
    })
}

#[derive(Clone, Copy, PartialEq)]
enum Fault {
    None,
    Text,
    TextTail,
    RefusedRoom,
    TableTail,
    Place,
    Part,
    Check,
    Colour,
    Exact,
    PastRoom,
    Choice,
    Tried,
    Minus,
    Cut,
    RefusedReason,
    WidthGrows,
    RefusedBoard,
    OtherRow,
    TableBeforeRow,
    ClearedWidth,
    ToldWhileFeeding,
    SecondEnd,
    LostUnit,
    RefusedStream,
    EndedByOne,
    CountCut,
}

/// A stream with one fault.
struct Faulty {
    fault: Fault,
    stream: Box<dyn Stream>,
    fed: usize,
    ends: usize,
}

impl Stream for Faulty {
    fn feed(&mut self, part: &[u16]) -> (u16, u32) {
        self.fed += part.len();
        if self.fault == Fault::LostUnit && self.fed > 20 && !part.is_empty() {
            return self.stream.feed(&part[1..]);
        }
        match self.stream.feed(part) {
            (0, 0) if self.fault == Fault::ToldWhileFeeding && self.fed > 254 => {
                (answer::CODE_LENGTH, 0)
            }
            given => given,
        }
    }

    fn end(&mut self, table: &mut [u16]) -> Prepared {
        self.ends += 1;
        match self.stream.end(table) {
            given if self.fault == Fault::SecondEnd && self.ends == 2 => Prepared {
                answer: answer::TABLE_ROOM,
                ..given
            },
            given => given,
        }
    }

    fn held(&self) -> Held {
        let mut held = self.stream.held();
        if self.fault == Fault::RefusedStream && self.ends > 1 {
            held.ended = 2;
        }
        held
    }
}

struct Double(Fault);

impl Calls for Double {
    fn prepare(&self, code: &[u16], table: &mut [u16]) -> Prepared {
        let mut given = Oracle.prepare(code, table);
        let words = given.words as usize;
        if self.0 == Fault::TableTail && words > 0 && words < table.len() {
            table[words] ^= 1;
        }
        if self.0 == Fault::Place && given.answer == answer::KIND {
            given.place += 1;
        }
        given
    }

    fn start(&self) -> Held {
        Held::start()
    }

    fn stream(&self, from: &Held) -> Box<dyn Stream> {
        let mut from = from.clone();
        match self.0 {
            Fault::EndedByOne if from.ended > 1 => from.ended = 0,
            Fault::CountCut => from.count = from.count.min(254),
            _ => {}
        }
        Box::new(Faulty {
            fault: self.0,
            stream: Oracle.stream(&from),
            fed: 0,
            ends: 0,
        })
    }

    fn section(&self, code: &[u16], n: u32) -> Part {
        let mut given = Oracle.section(code, n);
        if self.0 == Fault::Part && given.length > 2 {
            given.length -= 1;
        }
        given
    }

    fn check(&self, table: &[u16]) -> u16 {
        let given = Oracle.check(table);
        match self.0 {
            Fault::Check if given == answer::TABLE && table.len() > 20 => answer::DONE,
            _ => given,
        }
    }

    fn show(&self, table: &[u16], value: &Value, room: &mut [u16]) -> Shown {
        let mut given = Oracle.show(table, value, room);
        let length = given.length as usize;
        match self.0 {
            Fault::Text if length > 3 => room[2] ^= 1,
            Fault::TextTail if given.answer == 0 && length < room.len() => room[length] ^= 1,
            Fault::RefusedRoom if given.answer == answer::TEXT_ROOM && !room.is_empty() => {
                room[0] = u16::from(b'0');
            }
            Fault::Colour if given.answer != 0 => given.colour = 1,
            Fault::Exact if given.answer == 0 => given.exact = 1,
            Fault::PastRoom if given.answer == answer::TEXT_ROOM => write_past(room),
            _ => {}
        }
        given
    }

    fn why(&self, table: &[u16], value: &Value, room_length: usize) -> Why {
        let mut given = Oracle.why(table, value, room_length);
        match self.0 {
            // The rest of two for the rest of three.
            Fault::Choice if given.choice == 6 => given.choice = 3,
            Fault::Tried if given.tried[1] != 0 => given.tried[1] = 0,
            // (a) for an empty section.
            Fault::Minus if given.minus == 3 && given.section == 1 => given.minus = 4,
            // By the coefficient's scale.
            Fault::Cut => {
                if let Value::Number { scale, .. } = value {
                    given.cut = given.cut.max((*scale as u16).min(given.cut + 1));
                }
            }
            Fault::RefusedReason if given.answer != 0 => given.section = 1,
            _ => {}
        }
        given
    }

    fn empty(&self) -> Board {
        Board::empty()
    }

    fn put(
        &self,
        board: &Board,
        row: u32,
        table: &[u16],
        value: &Value,
        room: &mut [u16],
    ) -> (Board, Shown) {
        let (mut after, mut shown) = Oracle.put(board, row, table, value, room);
        match self.0 {
            Fault::WidthGrows if shown.answer == 0 => {
                after.widest = after.widest.max(board.widest);
            }
            Fault::RefusedBoard if shown.answer == answer::TEXT_ROOM => {
                after.rows[row as usize] = Row::default();
            }
            Fault::OtherRow if shown.answer == 0 && row == 62 => after.rows[63].colour ^= 1,
            Fault::TableBeforeRow if shown.answer == answer::ROW => {
                shown.answer = answer::TABLE;
            }
            _ => {}
        }
        (after, shown)
    }

    fn clear(&self, board: &Board, row: u32) -> (Board, u16) {
        let (mut after, answer) = Oracle.clear(board, row);
        if self.0 == Fault::ClearedWidth {
            after.widest = board.widest;
        }
        (after, answer)
    }
}

/// One unit behind the room, as a library in another language could.
fn write_past(room: &mut [u16]) {
    // Safety: the comparison lends a room with guard units behind it.
    unsafe { *room.as_mut_ptr().add(room.len()) ^= 1 }
}

#[test]
fn the_oracle_agrees_with_itself() {
    assert!(!found(&Double(Fault::None)));
}

#[test]
fn every_fault_is_found() {
    assert!(found(&Double(Fault::Text)));
    assert!(found(&Double(Fault::TextTail)));
    assert!(found(&Double(Fault::RefusedRoom)));
    assert!(found(&Double(Fault::TableTail)));
    assert!(found(&Double(Fault::Place)));
    assert!(found(&Double(Fault::Part)));
    assert!(found(&Double(Fault::Check)));
    assert!(found(&Double(Fault::Colour)));
    assert!(found(&Double(Fault::Exact)));
    assert!(found(&Double(Fault::PastRoom)));
    assert!(found(&Double(Fault::Choice)));
    assert!(found(&Double(Fault::Tried)));
    assert!(found(&Double(Fault::Minus)));
    assert!(found(&Double(Fault::Cut)));
    assert!(found(&Double(Fault::RefusedReason)));
    assert!(found(&Double(Fault::WidthGrows)));
    assert!(found(&Double(Fault::RefusedBoard)));
    assert!(found(&Double(Fault::OtherRow)));
    assert!(found(&Double(Fault::TableBeforeRow)));
    assert!(found(&Double(Fault::ClearedWidth)));
    assert!(found(&Double(Fault::ToldWhileFeeding)));
    assert!(found(&Double(Fault::SecondEnd)));
    assert!(found(&Double(Fault::LostUnit)));
    assert!(found(&Double(Fault::RefusedStream)));
    assert!(found(&Double(Fault::EndedByOne)));
    assert!(found(&Double(Fault::CountCut)));
}
