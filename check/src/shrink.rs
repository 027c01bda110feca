//! Makes a failing case small: takes away and simplifies what it can while the case still fails.

use crate::calls::Held;
use crate::case::{Case, Step, StreamStep};
use crate::oracle::{Board, Value};

const MOST_TRIES: usize = 200_000;
const HEAD_WORDS: usize = 12;

/// Where a second section's flags stand.
const SECOND_FLAGS: usize = 1 + HEAD_WORDS + 9;

/// The smallest case that greedy steps from `case` reach and that still fails.
pub fn shrink(case: Case, fails: impl Fn(&Case) -> bool) -> Case {
    let mut smallest = case;
    let mut tries = 0;
    'smaller: loop {
        for candidate in candidates(&smallest) {
            tries += 1;
            if tries > MOST_TRIES {
                return smallest;
            }
            if fails(&candidate) {
                smallest = candidate;
                continue 'smaller;
            }
        }
        return smallest;
    }
}

/// Simpler cases, each nearer to an end that is reached in finitely many steps.
fn candidates(case: &Case) -> Vec<Case> {
    match case {
        Case::Prepare { code, room } => {
            sized(code, *room, |code, room| Case::Prepare { code, room })
        }
        Case::Stream { from, steps } => streams(from, steps),
        Case::Section { code, n } => sized(code, *n as usize, |code, n| Case::Section {
            code,
            n: n as u32,
        }),
        Case::ShowCode { code, value, room } => {
            let make = |code, value, room| Case::ShowCode { code, value, room };
            shows(runs(code), code, value, *room, make)
        }
        Case::ShowTable { table, value, room } => {
            let make = |table, value, room| Case::ShowTable { table, value, room };
            shows(tables(table), table, value, *room, make)
        }
        Case::Run { board, steps } => boards(board, steps),
    }
}

/// From the start, without one step, and with one step made smaller.
fn streams(from: &Held, steps: &[StreamStep]) -> Vec<Case> {
    let make = |from: &Held, steps: Vec<StreamStep>| Case::Stream {
        from: Box::new(from.clone()),
        steps,
    };
    let mut found = Vec::new();
    if *from != Held::start() {
        found.push(make(&Held::start(), steps.to_vec()));
    }
    for at in 0..steps.len() {
        let smaller: Vec<StreamStep> = match &steps[at] {
            StreamStep::Feed(part) => runs(part).into_iter().map(StreamStep::Feed).collect(),
            StreamStep::End(room) => rooms(*room).into_iter().map(StreamStep::End).collect(),
        };
        let with = |step: Option<StreamStep>| {
            let mut steps = steps.to_vec();
            steps.splice(at..=at, step);
            make(from, steps)
        };
        found.push(with(None));
        found.extend(smaller.into_iter().map(|step| with(Some(step))));
    }
    found
}

/// From the empty board, without one step, and with one step made simpler.
fn boards(board: &Board, steps: &[Step]) -> Vec<Case> {
    let make = |board: &Board, steps: Vec<Step>| Case::Run {
        board: board.clone(),
        steps,
    };
    let mut found = Vec::new();
    if *board != Board::empty() {
        found.push(make(&Board::empty(), steps.to_vec()));
    }
    for at in 0..steps.len() {
        let mut rest = steps.to_vec();
        rest.remove(at);
        found.push(make(board, rest));
        for simpler in simpler_steps(&steps[at]) {
            let mut rest = steps.to_vec();
            rest[at] = simpler;
            found.push(make(board, rest));
        }
    }
    found
}

fn simpler_steps(step: &Step) -> Vec<Step> {
    match step {
        Step::Clear { .. } => Vec::new(),
        Step::Put {
            row,
            table,
            value,
            room,
        } => {
            let make = |table, value, room| Step::Put {
                row: *row,
                table,
                value,
                room,
            };
            shows(tables(table), table, value, *room, make)
        }
    }
}

/// A code and a number beside it, each made smaller in turn.
fn sized(code: &[u16], number: usize, make: impl Fn(Vec<u16>, usize) -> Case) -> Vec<Case> {
    let mut found = Vec::new();
    found.extend(runs(code).into_iter().map(|code| make(code, number)));
    found.extend(
        rooms(number)
            .into_iter()
            .map(|number| make(code.to_vec(), number)),
    );
    found
}

/// A code or table, a value and a room, each made smaller in turn.
fn shows<T>(
    simpler: Vec<Vec<u16>>,
    units: &[u16],
    value: &Value,
    room: usize,
    make: impl Fn(Vec<u16>, Value, usize) -> T,
) -> Vec<T> {
    let mut found = Vec::new();
    for smaller in simpler {
        found.push(make(smaller, value.clone(), room));
    }
    for smaller in values(value) {
        found.push(make(units.to_vec(), smaller, room));
    }
    for smaller in rooms(room) {
        found.push(make(units.to_vec(), value.clone(), smaller));
    }
    found
}

/// The units without one stretch, the longest stretches first.
fn shorter(units: &[u16]) -> Vec<Vec<u16>> {
    let mut found = Vec::new();
    let mut length = units.len();
    while length > 0 {
        for start in (0..=units.len() - length).step_by(length.div_ceil(2)) {
            let mut rest = units.to_vec();
            rest.drain(start..start + length);
            found.push(rest);
        }
        length /= 2;
    }
    found
}

/// Shorter, or with a plain letter for a unit above ASCII.
fn runs(units: &[u16]) -> Vec<Vec<u16>> {
    let mut found = shorter(units);
    if let Some(at) = units.iter().position(|unit| *unit > 127) {
        let mut plain = units.to_vec();
        plain[at] = u16::from(b'x');
        found.insert(0, plain);
    }
    found
}

fn tables(table: &[u16]) -> Vec<Vec<u16>> {
    let mut found = without_section(table);
    found.extend(without_items(table));
    found.extend(shorter(table));
    for (at, word) in table.iter().enumerate().filter(|(_, word)| **word > 0) {
        for simpler in [0, word / 2, word - 1] {
            let mut lower = table.to_vec();
            lower[at] = simpler;
            found.push(lower);
        }
    }
    found
}

/// The table without one section's head and items, with and without the flag for the added minus in
/// the second section, since that may be another one now.
fn without_section(table: &[u16]) -> Vec<Vec<u16>> {
    let sections = usize::from(table.first().copied().unwrap_or(0));
    let mut found = Vec::new();
    let mut items_at = 1 + sections * HEAD_WORDS;
    for section in 0..sections {
        let head_at = 1 + section * HEAD_WORDS;
        let count = table.get(head_at + HEAD_WORDS - 1).copied().unwrap_or(0);
        let items_end = items_at + 2 * usize::from(count);
        if items_end <= table.len() {
            let mut rest = table.to_vec();
            rest.drain(items_at..items_end);
            rest.drain(head_at..head_at + HEAD_WORDS);
            rest[0] -= 1;
            found.push(rest.clone());
            if let Some(flags) = rest.get_mut(SECOND_FLAGS) {
                *flags ^= 2;
                found.push(rest);
            }
        }
        items_at = items_end;
    }
    found
}

/// The table without one item, its count put right.
fn without_items(table: &[u16]) -> Vec<Vec<u16>> {
    let sections = usize::from(table.first().copied().unwrap_or(0));
    let mut found = Vec::new();
    let mut at = 1 + sections * HEAD_WORDS;
    for section in 0..sections {
        let count_at = (section + 1) * HEAD_WORDS;
        let count = usize::from(table.get(count_at).copied().unwrap_or(0));
        for item in (at..).step_by(2).take(count) {
            if item + 2 <= table.len() {
                let mut rest = table.to_vec();
                rest.drain(item..item + 2);
                rest[count_at] -= 1;
                found.push(rest);
            }
        }
        at += 2 * count;
    }
    found
}

fn rooms(room: usize) -> Vec<usize> {
    let mut found = vec![0, room / 2, room.saturating_sub(1)];
    found.retain(|smaller| *smaller < room);
    found
}

fn values(value: &Value) -> Vec<Value> {
    match value {
        Value::Number { coefficient, scale } => numbers(*coefficient, *scale),
        Value::Instant { day, ms } => {
            let days = rooms(*day as usize)
                .into_iter()
                .map(|day| (day as u32, *ms));
            let times = rooms(*ms as usize).into_iter().map(|ms| (*day, ms as u32));
            let make = |(day, ms)| Value::Instant { day, ms };
            days.chain(times).map(make).collect()
        }
        Value::Text(text) => runs(text).into_iter().map(Value::Text).collect(),
    }
}

fn numbers(coefficient: i64, scale: u32) -> Vec<Value> {
    let magnitudes = [
        0,
        coefficient / 10,
        coefficient / 2,
        coefficient - coefficient.signum(),
    ];
    let mut found = Vec::new();
    for smaller in magnitudes {
        if smaller != coefficient {
            found.push((smaller, scale));
        }
    }
    if coefficient < 0 && coefficient != i64::MIN {
        found.push((-coefficient, scale));
    }
    for lower in rooms(scale as usize) {
        found.push((coefficient, lower as u32));
        found.push((coefficient / 10, lower as u32));
    }
    let make = |(coefficient, scale)| Value::Number { coefficient, scale };
    found.into_iter().map(make).collect()
}
