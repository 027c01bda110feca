//! Compares the oracle, and for boards the library too, with lists of known rows, whose paths the caller gives.
//!
//! A row of values is `code kind value answer place section colour exact text`, or the same without
//! `exact`, a row of tables is its words and what they are: `made from` a code, `passes`, or `8`. Fields
//! are parted by tabs; a line names the columns, and lines before it that begin with `//` are remarks.
//!
//! A row of runs is `run call row code kind value room`, then `answer length colour section exact` of the call,
//! the rows of the board after it that are not empty, as `row:length:colour`, and its width. The code may be
//! `table:` and words. A run starts from the empty board.

use std::process::ExitCode;

use crate::calls::{refused, Calls, Shown};
use crate::oracle::{
    answer, answer_lines, check_table, prepare, read, show, units, Board, Prepared, Reading, Row,
    Value, PROGRAM_TABLE_WORDS,
};

const ROOM: usize = 4096;

/// Where `exact` stands in a row that has it.
const EXACT: usize = 7;

pub fn run(values: &str, tables: &str) -> ExitCode {
    let counted = check_rows(values, value_row).and_then(|values| {
        let tables = check_rows(tables, table_row)?;
        Ok((values, tables))
    });
    match counted {
        Ok((values, tables)) => {
            println!("{values} rows of values and {tables} rows of tables agree");
            ExitCode::SUCCESS
        }
        Err(message) => {
            eprintln!("{message}");
            ExitCode::FAILURE
        }
    }
}

/// Each of these calls gives what every row of the list says, one after the other, where `start` begins.
pub fn run_calls<'a, Row>(
    path: &str,
    calls: &[&'a dyn Calls],
    start: impl Fn(&'a dyn Calls) -> Row,
) -> ExitCode
where
    Row: FnMut(&[&str]) -> Result<(), String>,
{
    let mut rows = 0;
    for calls in calls {
        match check_rows(path, start(*calls)) {
            Ok(counted) => rows += counted,
            Err(message) => {
                eprintln!("{message}");
                return ExitCode::FAILURE;
            }
        }
    }
    println!("{rows} rows of runs agree");
    ExitCode::SUCCESS
}

pub fn run_boards(path: &str, calls: &[&dyn Calls]) -> ExitCode {
    run_calls(path, calls, |calls| {
        let mut at = (String::new(), calls.empty());
        move |fields: &[&str]| board_row(calls, &mut at, fields)
    })
}

fn check_rows(
    path: &str,
    mut check: impl FnMut(&[&str]) -> Result<(), String>,
) -> Result<usize, String> {
    let text = std::fs::read_to_string(path).map_err(|error| format!("{path}: {error}"))?;
    let mut failures = Vec::new();
    let mut rows = 0;
    let lines = text.lines().enumerate();
    for (index, line) in lines.skip_while(|(_, line)| line.starts_with("//")).skip(1) {
        let fields: Vec<&str> = line.split('\t').collect();
        rows += 1;
        if let Err(message) = check(&fields) {
            failures.push(format!("{path}:{}: {message}", index + 1));
        }
    }
    if failures.is_empty() {
        Ok(rows)
    } else {
        Err(failures.join("\n"))
    }
}

pub fn agree<T: PartialEq + std::fmt::Debug>(
    what: &str,
    found: T,
    expected: T,
) -> Result<(), String> {
    if found == expected {
        Ok(())
    } else {
        Err(format!("{what}: found {found:?}, expected {expected:?}"))
    }
}

pub fn parsed<T: std::str::FromStr>(field: &str) -> Result<T, String> {
    field.parse().map_err(|_| format!("`{field}` is no number"))
}

fn value_row(fields: &[&str]) -> Result<(), String> {
    let (fields, exact) = without_exact(fields);
    let [code, kind, value, answer, place, section, colour, text] = fields[..] else {
        return Err("a row has eight fields, or nine with exact".to_string());
    };
    let request = format!("code={code}\nkind={kind}\nvalue={value}\n");
    let (code, value) = (units(code), value_of(kind, value)?);
    let read = read(&code, &value, ROOM);
    let exact: u16 = match exact {
        Some(exact) => parsed(exact)?,
        None => read.as_ref().map_or(0, |reading| reading.exact.into()),
    };
    let lines =
        format!("answer={answer}\nplace={place}\ncolour={colour}\nexact={exact}\ntext={text}\n");
    let written = answer_lines(request.as_bytes());
    agree(
        "program",
        String::from_utf8_lossy(&written).into_owned(),
        lines,
    )?;
    let expected = match parsed(answer)? {
        answer::DONE => Ok(Reading {
            text: units(text),
            colour: parsed(colour)?,
            section: parsed(section)?,
            exact: exact == 1,
        }),
        refusal => Err(refusal),
    };
    let prepared = prepare(&code, PROGRAM_TABLE_WORDS);
    if prepared.answer == answer::DONE {
        let shown = show(&prepared.words, &value, ROOM);
        agree("table", shown, expected.clone())?;
    }
    agree("code", read, expected)
}

/// The other fields, and `exact`, which lists older than 02's P10 do not tell: there it has to be what
/// the reading off the code tells.
fn without_exact<'a>(fields: &[&'a str]) -> (Vec<&'a str>, Option<&'a str>) {
    let mut others = fields.to_vec();
    let exact = (fields.len() == 9).then(|| others.remove(EXACT));
    (others, exact)
}

fn value_of(kind: &str, value: &str) -> Result<Value, String> {
    match kind {
        "text" => Ok(Value::Text(units(value))),
        "instant" => {
            let (day, ms) = value.split_once('/').ok_or("an instant is day/ms")?;
            Ok(Value::Instant {
                day: parsed(day)?,
                ms: parsed(ms)?,
            })
        }
        _ => {
            let scale = value
                .split_once('.')
                .map_or(0, |(_, decimals)| decimals.len());
            Ok(Value::Number {
                coefficient: parsed(&value.replace('.', ""))?,
                scale: scale as u32,
            })
        }
    }
}

fn table_row(fields: &[&str]) -> Result<(), String> {
    let [words, verdict] = fields else {
        return Err("a row has two fields".to_string());
    };
    let words: Vec<u16> = words.split(' ').map(parsed).collect::<Result<_, _>>()?;
    agree("rules", check_table(&words), *verdict != "8")?;
    match verdict.strip_prefix("made from ") {
        Some(code) => agree(
            "prepared",
            prepare(&units(code), words.len()),
            Prepared {
                answer: answer::DONE,
                place: 0,
                words,
            },
        ),
        None => Ok(()),
    }
}

/// `at` has the run of the row before and the board that it left.
fn board_row(calls: &dyn Calls, at: &mut (String, Board), fields: &[&str]) -> Result<(), String> {
    let [run, call, row, code, kind, value, room, answer, length, colour, section, exact, board, width] =
        fields[..]
    else {
        return Err("a row has fourteen fields".to_string());
    };
    if at.0 != run {
        *at = (run.to_string(), calls.empty());
    }
    let row = parsed(row)?;
    let (after, shown) = match call {
        "clear" => {
            let (after, answer) = calls.clear(&at.1, row);
            (after, refused(answer))
        }
        _ => {
            let mut room = vec![0; parsed(room)?];
            let value = value_of(kind, value)?;
            calls.put(&at.1, row, &table_of(code)?, &value, &mut room)
        }
    };
    let expected = Shown {
        answer: parsed(answer)?,
        length: parsed(length)?,
        colour: parsed(colour)?,
        section: parsed(section)?,
        exact: parsed(exact)?,
    };
    at.1 = after;
    agree("shown", shown, expected)?;
    agree("board", filled_rows(&at.1), board.to_string())?;
    agree("width", at.1.widest, parsed(width)?)
}

fn table_of(code: &str) -> Result<Vec<u16>, String> {
    match code.strip_prefix("table:") {
        Some(words) => words.split(' ').map(parsed).collect(),
        None => Ok(prepare(&units(code), PROGRAM_TABLE_WORDS).words),
    }
}

/// An empty row has to have its one spelling, or it is told too.
fn filled_rows(board: &Board) -> String {
    let rows = board.rows.iter().enumerate();
    let told = rows.filter(|(_, row)| **row != Row::default());
    let spelled = |(at, row): (usize, &Row)| match row.filled {
        1 => format!("{at}:{}:{}", row.length, row.colour),
        _ => format!("{at}:{row:?}"),
    };
    told.map(spelled).collect::<Vec<String>>().join(" ")
}
