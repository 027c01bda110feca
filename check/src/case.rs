//! One comparison: what is asked, what the oracle gives for it, and whether the library agrees.

use crate::calls::{shown_of, why_of, Calls, Held, Oracle, Part, Prepared, Stream};
use crate::oracle::{self, Board, Reading, Reason, Value, PROGRAM_TABLE_WORDS};

/// Units in front of and behind a lent room, which nothing may touch.
const GUARD: usize = 8;

#[derive(Clone, Debug)]
pub enum Case {
    Prepare {
        code: Vec<u16>,
        room: usize,
    },
    /// A code in parts, each fed to the stream that the call before it handed back.
    Stream {
        from: Box<Held>,
        steps: Vec<StreamStep>,
    },
    Section {
        code: Vec<u16>,
        n: u32,
    },
    /// The library prepares the code, and the value is shown through its table.
    ShowCode {
        code: Vec<u16>,
        value: Value,
        room: usize,
    },
    ShowTable {
        table: Vec<u16>,
        value: Value,
        room: usize,
    },
    /// A run of calls, each on the board that the one before it handed back.
    Run {
        board: Board,
        steps: Vec<Step>,
    },
}

/// A call on a stream: a part is fed, or it is ended in a room of so many words.
#[derive(Clone, Debug)]
pub enum StreamStep {
    Feed(Vec<u16>),
    End(usize),
}

/// A call on a board.
#[derive(Clone, Debug)]
pub enum Step {
    Put {
        row: u32,
        table: Vec<u16>,
        value: Value,
        room: usize,
    },
    Clear {
        row: u32,
    },
}

/// Requests by call and by answer.
#[derive(Default)]
pub struct Counts {
    pub prepare: u64,
    pub stream: u64,
    pub section: u64,
    pub number: u64,
    pub instant: u64,
    pub text: u64,
    pub why: u64,
    pub put: u64,
    pub clear: u64,
    pub answers: [u64; 17],
}

impl Counts {
    pub fn requests(&self) -> u64 {
        let shown = self.number + self.instant + self.text;
        let boards = self.put + self.clear;
        self.prepare + self.stream + self.section + shown + self.why + boards
    }

    fn answer(&mut self, answer: u16) {
        self.answers[usize::from(answer)] += 1;
    }

    fn show(&mut self, value: &Value) {
        match value {
            Value::Number { .. } => self.number += 1,
            Value::Instant { .. } => self.instant += 1,
            Value::Text(_) => self.text += 1,
        }
    }
}

impl Case {
    /// Asks the library and compares. The error says what differs, its first line in short.
    pub fn check(&self, calls: &dyn Calls, counts: &mut Counts) -> Result<(), String> {
        match self {
            Case::Prepare { code, room } => prepare(calls, counts, code, *room).map(|_| ()),
            Case::Stream { from, steps } => stream(calls, counts, from, steps),
            Case::Section { code, n } => section(calls, counts, code, *n),
            Case::ShowCode { code, value, room } => {
                let table = prepare(calls, counts, code, PROGRAM_TABLE_WORDS)?;
                if table.is_empty() {
                    return Ok(());
                }
                let expected = oracle::read(code, value, *room);
                let through_table = oracle::show(&table, value, *room);
                same("the oracle's own two readings", &through_table, &expected)?;
                let reason = oracle::read_why(code, value, *room);
                let through_table = oracle::show_why(&table, value, *room);
                same("the oracle's own two reasons", &through_table, &reason)?;
                show(calls, counts, &table, value, *room, &expected)?;
                why(calls, counts, &table, value, *room, &reason)
            }
            Case::ShowTable { table, value, room } => {
                let expected = oracle::show(table, value, *room);
                let reason = oracle::show_why(table, value, *room);
                show(calls, counts, table, value, *room, &expected)?;
                why(calls, counts, table, value, *room, &reason)
            }
            Case::Run { board, steps } => run(calls, counts, board, steps),
        }
    }
}

fn same<T: PartialEq + std::fmt::Debug>(what: &str, found: &T, expected: &T) -> Result<(), String> {
    if found == expected {
        Ok(())
    } else {
        Err(format!(
            "{what}\n  found    {found:?}\n  expected {expected:?}"
        ))
    }
}

/// Told apart by the two answers, so that making a case small keeps to the difference first seen.
fn headline(call: &str, (found, expected): (u16, u16)) -> String {
    format!("{call}: answer {found}, expected {expected}")
}

/// A lent room between guards, all filled with a pattern that changes from unit to unit.
struct Room {
    units: Vec<u16>,
}

fn pattern(at: usize) -> u16 {
    0xA5C3 ^ (at as u16).wrapping_mul(257)
}

impl Room {
    fn new(length: usize) -> Room {
        Room {
            units: (0..length + 2 * GUARD).map(pattern).collect(),
        }
    }

    fn lent(&mut self) -> &mut [u16] {
        let end = self.units.len() - GUARD;
        &mut self.units[GUARD..end]
    }

    /// The room begins with `text`, and every other unit in it and around it is as it was.
    fn holds(&self, text: &[u16]) -> Result<(), String> {
        let written = GUARD..GUARD + text.len();
        same("the units written", &&self.units[written.clone()], &text)?;
        let touched = (0..self.units.len())
            .filter(|at| !written.contains(at))
            .find(|at| self.units[*at] != pattern(*at));
        match touched {
            None => Ok(()),
            Some(at) => Err(format!(
                "a unit outside the text or words reported\n  unit {} of the room was changed, {} were reported, {} lent",
                at as i64 - GUARD as i64,
                text.len(),
                self.units.len() - 2 * GUARD
            )),
        }
    }
}

/// Gives the words written, none on a refusal.
fn prepare(
    calls: &dyn Calls,
    counts: &mut Counts,
    code: &[u16],
    room: usize,
) -> Result<Vec<u16>, String> {
    let expected = oracle::prepare(code, room);
    let mut table = Room::new(room);
    let lent = code.to_vec();
    let found = calls.prepare(&lent, table.lent());
    let wanted = Prepared {
        answer: expected.answer,
        place: expected.place,
        words: expected.words.len() as u32,
    };
    let answers = (found.answer, wanted.answer);
    same(&headline("preparing", answers), &found, &wanted)?;
    table.holds(&expected.words)?;
    same("the code lent", &lent.as_slice(), &code)?;
    counts.prepare += 1;
    counts.answer(found.answer);
    Ok(expected.words)
}

/// Each step gives what the oracle gives for it, and leaves the stream so.
fn stream(
    calls: &dyn Calls,
    counts: &mut Counts,
    from: &Held,
    steps: &[StreamStep],
) -> Result<(), String> {
    same("a stream at its start", &calls.start(), &Held::start())?;
    let (mut found, mut expected) = (calls.stream(from), Oracle.stream(from));
    for step in steps {
        let told = match step {
            StreamStep::Feed(part) => feed(found.as_mut(), expected.as_mut(), part)?,
            StreamStep::End(room) => end(found.as_mut(), expected.as_mut(), *room)?,
        };
        same("the stream", &found.held(), &expected.held())?;
        counts.answer(told);
    }
    counts.stream += 1;
    Ok(())
}

fn feed(found: &mut dyn Stream, expected: &mut dyn Stream, part: &[u16]) -> Result<u16, String> {
    let lent = part.to_vec();
    let (found, wanted) = (found.feed(&lent), expected.feed(part));
    same(&headline("feeding", (found.0, wanted.0)), &found, &wanted)?;
    same("the part lent", &lent.as_slice(), &part)?;
    Ok(found.0)
}

fn end(found: &mut dyn Stream, expected: &mut dyn Stream, room: usize) -> Result<u16, String> {
    let (mut table, mut words) = (Room::new(room), vec![0; room]);
    let (found, wanted) = (found.end(table.lent()), expected.end(&mut words));
    let answers = (found.answer, wanted.answer);
    same(&headline("ending", answers), &found, &wanted)?;
    table.holds(&words[..wanted.words as usize])?;
    Ok(found.answer)
}

fn section(calls: &dyn Calls, counts: &mut Counts, code: &[u16], n: u32) -> Result<(), String> {
    let (start, length) = oracle::section(code, n);
    let found = calls.section(code, n);
    same("the section's part", &found, &Part { start, length })?;
    counts.section += 1;
    Ok(())
}

fn check(calls: &dyn Calls, table: &[u16]) -> Result<(), String> {
    let (found, expected) = (calls.check(table), Oracle.check(table));
    same(&headline("checking", (found, expected)), &found, &expected)
}

/// Every table that is shown through is checked as well.
fn show(
    calls: &dyn Calls,
    counts: &mut Counts,
    table: &[u16],
    value: &Value,
    room: usize,
    expected: &Result<Reading, u16>,
) -> Result<(), String> {
    let mut text = Room::new(room);
    let lent = (table.to_vec(), value.clone());
    let found = calls.show(&lent.0, &lent.1, text.lent());
    let wanted = shown_of(expected);
    let answers = (found.answer, wanted.answer);
    same(&headline("showing", answers), &found, &wanted)?;
    check(calls, &lent.0)?;
    text.holds(units(expected))?;
    same("the table lent", &lent.0.as_slice(), &table)?;
    same("the value lent", &&lent.1, &value)?;
    counts.show(value);
    counts.answer(found.answer);
    Ok(())
}

fn why(
    calls: &dyn Calls,
    counts: &mut Counts,
    table: &[u16],
    value: &Value,
    room: usize,
    expected: &Result<Reason, u16>,
) -> Result<(), String> {
    let (found, wanted) = (calls.why(table, value, room), why_of(expected));
    let answers = (found.answer, wanted.answer);
    same(&headline("asking why", answers), &found, &wanted)?;
    counts.why += 1;
    Ok(())
}

/// The units that a show writes; of a refusal none.
fn units(shown: &Result<Reading, u16>) -> &[u16] {
    shown.as_ref().map_or(&[], |reading| &reading.text)
}

fn run(
    calls: &dyn Calls,
    counts: &mut Counts,
    board: &Board,
    steps: &[Step],
) -> Result<(), String> {
    same("the empty board", &calls.empty(), &Board::empty())?;
    let mut board = board.clone();
    for step in steps {
        board = match step {
            Step::Put {
                row,
                table,
                value,
                room,
            } => put(calls, counts, &board, *row, table, value, *room)?,
            Step::Clear { row } => clear(calls, counts, &board, *row)?,
        };
    }
    Ok(())
}

/// Gives the board handed back.
fn put(
    calls: &dyn Calls,
    counts: &mut Counts,
    board: &Board,
    row: u32,
    table: &[u16],
    value: &Value,
    room: usize,
) -> Result<Board, String> {
    let (wanted, expected) = board.put(row, table, value, room);
    let mut text = Room::new(room);
    let lent = (table.to_vec(), value.clone());
    let (found, shown) = calls.put(board, row, &lent.0, &lent.1, text.lent());
    let answers = (shown.answer, shown_of(&expected).answer);
    same(&headline("putting", answers), &shown, &shown_of(&expected))?;
    same("the board of a put", &found, &wanted)?;
    text.holds(units(&expected))?;
    same("the table lent", &lent.0.as_slice(), &table)?;
    same("the value lent", &&lent.1, &value)?;
    counts.put += 1;
    counts.answer(shown.answer);
    Ok(found)
}

fn clear(calls: &dyn Calls, counts: &mut Counts, board: &Board, row: u32) -> Result<Board, String> {
    let (wanted, expected) = board.clear(row);
    let (found, answer) = calls.clear(board, row);
    same(
        &headline("clearing", (answer, expected)),
        &answer,
        &expected,
    )?;
    same("the board of a clear", &found, &wanted)?;
    counts.clear += 1;
    counts.answer(answer);
    Ok(found)
}
