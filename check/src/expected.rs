//! What the oracle gives for lists of codes and requests, to be compared with a program's output.

use std::io::{Read, Write};
use std::process::ExitCode;

use crate::calls::why_of;
use crate::oracle::{
    answer, answer_lines_and_section, asked_why, prepare as prepare_code, PROGRAM_TABLE_WORDS,
};

/// A request is three lines; one that asks why has a fourth, with the room's length.
const REQUEST_LINES: usize = 3;
const WHY_LINES: usize = 4;

/// One line for each code: answer, place, count of words, and the words.
pub fn prepare() -> ExitCode {
    each(
        |input| input.split_inclusive(|byte| *byte == b'\n').collect(),
        prepared_line,
    )
}

/// Five lines for each request of three, and its section.
pub fn show() -> ExitCode {
    each(
        |input| blocks(input, REQUEST_LINES),
        answer_lines_and_section,
    )
}

/// One line for each request of four: the answer and the numbers of the reason.
pub fn why() -> ExitCode {
    each(|input| blocks(input, WHY_LINES), why_line)
}

fn each(cut: impl Fn(&[u8]) -> Vec<&[u8]>, answered: impl Fn(&[u8]) -> Vec<u8>) -> ExitCode {
    let mut input = Vec::new();
    if let Err(error) = std::io::stdin().read_to_end(&mut input) {
        eprintln!("reading: {error}");
        return ExitCode::FAILURE;
    }
    let output: Vec<u8> = cut(&input).into_iter().flat_map(answered).collect();
    match std::io::stdout().write_all(&output) {
        Ok(()) => ExitCode::SUCCESS,
        Err(error) => {
            eprintln!("writing: {error}");
            ExitCode::FAILURE
        }
    }
}

fn prepared_line(line: &[u8]) -> Vec<u8> {
    let code: Vec<u16> = line
        .strip_suffix(b"\n")
        .unwrap_or(line)
        .iter()
        .map(|byte| u16::from(*byte))
        .collect();
    let prepared = prepare_code(&code, PROGRAM_TABLE_WORDS);
    let mut out = format!(
        "{} {} {}",
        prepared.answer,
        prepared.place,
        prepared.words.len()
    );
    if prepared.answer == answer::DONE {
        for word in &prepared.words {
            out.push_str(&format!(" {word}"));
        }
    }
    out.push('\n');
    out.into_bytes()
}

fn why_line(request: &[u8]) -> Vec<u8> {
    let why = why_of(&asked_why(request));
    let [first, second] = why.tried;
    format!(
        "answer={} section={} choice={} first={first} second={second} minus={} cut={}\n",
        why.answer, why.section, why.choice, why.minus, why.cut
    )
    .into_bytes()
}

/// Runs of so many lines; what is left over at the end makes a malformed last request.
fn blocks(input: &[u8], size: usize) -> Vec<&[u8]> {
    let mut found = Vec::new();
    let mut rest = input;
    while !rest.is_empty() {
        let lines = rest.split_inclusive(|byte| *byte == b'\n');
        let length = lines.take(size).map(<[u8]>::len).sum();
        let (request, others) = rest.split_at(length);
        found.push(request);
        rest = others;
    }
    found
}
