//! The differential run: cases are made, checked and counted; the first that fails is made small and
//! told.

use std::process::ExitCode;
use std::time::{Duration, Instant, SystemTime, UNIX_EPOCH};

use crate::calls::Calls;
use crate::case::{Case, Counts, Step};
use crate::generate::{board, code, room, stream, table, value};
use crate::oracle::{self, answer, Reading, Value};
use crate::random::Random;
use crate::shrink::shrink;

const DEFAULT_COUNT: u64 = 1_000_000;

/// The length that rooms are made around where a refusal gives none.
const REFUSED_LENGTH: usize = 20;

/// Most calls of a run on one board.
const MOST_STEPS: usize = 24;

pub struct Options {
    pub count: u64,
    pub seed: u64,
    /// Tells every case before it is run, to find one that ends the process.
    pub trace: bool,
    /// Draws nothing but streams.
    pub streams: bool,
}

impl Options {
    /// From `--count N`, `--seed S`, `--trace` and `--streams`; without a seed the clock gives one.
    pub fn from_words(words: &[&str]) -> Result<Options, String> {
        let mut options = Options {
            count: DEFAULT_COUNT,
            seed: clock_seed(),
            trace: false,
            streams: false,
        };
        let mut rest = words.iter();
        while let Some(word) = rest.next() {
            let mut number = || {
                let digits = rest.next().ok_or(format!("{word} needs a number"))?;
                digits
                    .parse()
                    .map_err(|_| format!("`{digits}` is no number"))
            };
            match *word {
                "--count" => options.count = number()?,
                "--seed" => options.seed = number()?,
                "--trace" => options.trace = true,
                "--streams" => options.streams = true,
                other => return Err(format!("unknown option `{other}`")),
            }
        }
        Ok(options)
    }
}

fn clock_seed() -> u64 {
    let since = SystemTime::now().duration_since(UNIX_EPOCH);
    since.map_or(0, |since| since.as_nanos() as u64)
}

pub fn run(calls: &dyn Calls, options: &Options) -> ExitCode {
    println!("seed {}", options.seed);
    let started = Instant::now();
    let mut told = started;
    let mut counts = Counts::default();
    let mut index = 0;
    while counts.requests() < options.count {
        let mut random = Random::for_case(options.seed, index);
        let case = match options.streams {
            true => streamed(&mut random),
            false => make(&mut random),
        };
        if options.trace {
            eprintln!("case {index}:\n{}", describe(&case));
        }
        if case.check(calls, &mut counts).is_err() {
            tell_failure(calls, options.seed, index, case);
            return ExitCode::FAILURE;
        }
        index += 1;
        if told.elapsed() > Duration::from_secs(2) {
            told = Instant::now();
            let percent = counts.requests() * 100 / options.count;
            eprintln!("{} requests, {percent}%", counts.requests());
        }
    }
    println!("{}", summary(&counts, started.elapsed()));
    ExitCode::SUCCESS
}

/// Makes one case.
pub fn make(random: &mut Random) -> Case {
    match random.weighted(&[22, 6, 42, 30, 2, 8]) {
        0 => {
            let code = code::code(random);
            let words = oracle::prepare(&code, usize::MAX).words.len();
            let room = room(random, if words == 0 { REFUSED_LENGTH } else { words });
            Case::Prepare { code, room }
        }
        1 => {
            let code = code::code(random);
            let n = match random.below(12) {
                0 => random.next() as u32,
                other => other as u32 % 5,
            };
            Case::Section { code, n }
        }
        2 => {
            let code = match random.below(4) {
                0 => code::code(random),
                _ => code::from_grammar(random),
            };
            let read = |value: &Value| oracle::read(&code, value, usize::MAX);
            let (value, room) = value_and_room(random, read);
            Case::ShowCode { code, value, room }
        }
        3 => {
            let (table, value, room) = table_value_and_room(random);
            Case::ShowTable { table, value, room }
        }
        4 => {
            let board = board::board(random);
            let steps = (0..random.between(1, MOST_STEPS)).map(|_| step(random));
            let steps = steps.collect();
            Case::Run { board, steps }
        }
        _ => streamed(random),
    }
}

fn streamed(random: &mut Random) -> Case {
    let (from, steps) = stream::stream(random);
    let from = Box::new(from);
    Case::Stream { from, steps }
}

/// Three puts for each clear; the table is mostly that of a code.
fn step(random: &mut Random) -> Step {
    let row = board::row(random);
    if random.chance(25) {
        return Step::Clear { row };
    }
    let (table, value, room) = table_value_and_room(random);
    Step::Put {
        row,
        table,
        value,
        room,
    }
}

fn table_value_and_room(random: &mut Random) -> (Vec<u16>, Value, usize) {
    let table = table::table(random);
    let show = |value: &Value| oracle::show(&table, value, usize::MAX);
    let (value, room) = value_and_room(random, show);
    (table, value, room)
}

/// A value and a room around the length of its text. A value of a sort that the section cannot show
/// is mostly drawn again, since those requests are all alike.
fn value_and_room(
    random: &mut Random,
    shown: impl Fn(&Value) -> Result<Reading, u16>,
) -> (Value, usize) {
    let mut value = value::value(random);
    while shown(&value) == Err(answer::SORT) && random.chance(80) {
        value = value::value(random);
    }
    let length = shown(&value).map_or(REFUSED_LENGTH, |reading| reading.text.len());
    let room = room(random, length);
    (value, room)
}

fn tell_failure(calls: &dyn Calls, seed: u64, index: u64, case: Case) {
    let message = |case: &Case| case.check(calls, &mut Counts::default()).err();
    let headline =
        |case: &Case| message(case).and_then(|told| told.lines().next().map(str::to_string));
    let first = headline(&case);
    let smallest = shrink(case, |candidate| headline(candidate) == first);
    println!("difference in case {index} of seed {seed}, made small:");
    println!("{}", describe(&smallest));
    println!("{}", message(&smallest).unwrap_or_default());
}

fn describe(case: &Case) -> String {
    match case {
        Case::Prepare { code, room } => {
            format!("prepare, {room} words lent\n{}", spelled("code", code))
        }
        Case::Stream { from, steps } => format!("stream\n  {from:?}\n  steps {steps:?}"),
        Case::Section { code, n } => format!("section {n}\n{}", spelled("code", code)),
        Case::ShowCode { code, value, room } => format!(
            "show {}, {room} units lent\n{}",
            described_value(value),
            spelled("code", code)
        ),
        Case::ShowTable { table, value, room } => format!(
            "show {}, {room} units lent\n  table {table:?}",
            described_value(value)
        ),
        Case::Run { board, steps } => {
            let steps: Vec<String> = steps.iter().map(described_step).collect();
            format!("{board:?}\n{}", steps.join("\n"))
        }
    }
}

fn described_step(step: &Step) -> String {
    match step {
        Step::Put {
            row,
            table,
            value,
            room,
        } => format!(
            "put row {row}, {}, {room} units lent\n  table {table:?}",
            described_value(value)
        ),
        Step::Clear { row } => format!("clear row {row}"),
    }
}

fn described_value(value: &Value) -> String {
    match value {
        Value::Text(text) => format!("a text\n{}", spelled("text", text)),
        other => format!("{other:?}"),
    }
}

fn spelled(name: &str, units: &[u16]) -> String {
    let text = String::from_utf16_lossy(units);
    format!("  {name} {units:?}\n  {name} as text {text:?}")
}

fn summary(counts: &Counts, time: Duration) -> String {
    let answers: Vec<String> = counts
        .answers
        .iter()
        .enumerate()
        .map(|(answer, count)| format!("{answer}: {count}"))
        .collect();
    format!(
        "{} requests agree; prepare {}, stream {}, section {}, number {}, instant {}, text {}, why {}, put {}, clear {}; answers {}; {:.1} s",
        counts.requests(),
        counts.prepare,
        counts.stream,
        counts.section,
        counts.number,
        counts.instant,
        counts.text,
        counts.why,
        counts.put,
        counts.clear,
        answers.join(", "),
        time.as_secs_f64()
    )
}

#[cfg(test)]
mod tests;
