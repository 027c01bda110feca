//! Document 01's program: three lines in, and since 02's P10 five lines out.

use super::answer;
use super::prepare::prepare;
use super::show::{show, show_why};
use super::value::{Reading, Reason, Value};

pub const PROGRAM_TABLE_WORDS: usize = 557;
const TEXT_UNITS: usize = 4096;
const LONGEST_LINE: usize = 2048;

/// Sixteen digits stand for every coefficient that is too large.
const TOO_LARGE: i64 = 1_000_000_000_000_000;

struct Outcome {
    answer: u16,
    place: u32,
    reading: Reading,
}

/// The whole output for the whole input.
pub fn answer_lines(input: &[u8]) -> Vec<u8> {
    lines(&outcome(input))
}

/// The same, and a line with the section, which document 01's program does not tell.
pub fn answer_lines_and_section(input: &[u8]) -> Vec<u8> {
    let outcome = outcome(input);
    let mut out = lines(&outcome);
    out.extend(format!("section={}\n", outcome.reading.section).bytes());
    out
}

/// Why the value of a request is shown as it is, in a room whose length a fourth line gives, `room=` and digits (02's P6). A
/// malformed line is answered as in the program, without its place.
pub fn asked_why(input: &[u8]) -> Result<Reason, u16> {
    let mut rest = input;
    let (code, value) = asked(&mut rest).map_err(|_| answer::LINE)?;
    let length = field(&mut rest, "room=").filter(|digits| all_digits(digits));
    let room = held(length.ok_or(answer::LINE)?, u64::from(u32::MAX)) as usize;
    let prepared = prepare(&code, PROGRAM_TABLE_WORDS);
    if prepared.answer != answer::DONE {
        return Err(prepared.answer);
    }
    show_why(&prepared.words, &value, room)
}

fn outcome(input: &[u8]) -> Outcome {
    let (code, value) = match request(input) {
        Ok(request) => request,
        Err(line) => return refused(answer::LINE, line),
    };
    let prepared = prepare(&code, PROGRAM_TABLE_WORDS);
    if prepared.answer != answer::DONE {
        return refused(prepared.answer, prepared.place);
    }
    match show(&prepared.words, &value, TEXT_UNITS) {
        Ok(reading) => Outcome {
            answer: answer::DONE,
            place: 0,
            reading,
        },
        Err(answer) => refused(answer, 0),
    }
}

fn refused(answer: u16, place: u32) -> Outcome {
    let reading = Reading {
        text: Vec::new(),
        colour: 0,
        section: 0,
        exact: false,
    };
    Outcome {
        answer,
        place,
        reading,
    }
}

fn lines(outcome: &Outcome) -> Vec<u8> {
    let Reading {
        text,
        colour,
        exact,
        ..
    } = &outcome.reading;
    let mut out = format!(
        "answer={}\nplace={}\ncolour={colour}\nexact={}\ntext=",
        outcome.answer,
        outcome.place,
        u16::from(*exact)
    )
    .into_bytes();
    let ascii = |unit: &u16| u8::try_from(*unit).expect("ASCII in, ASCII out");
    out.extend(text.iter().map(ascii));
    out.push(b'\n');
    out
}

/// The code and the value asked for, or the first malformed line.
fn request(input: &[u8]) -> Result<(Vec<u16>, Value), u32> {
    let mut rest = input;
    let request = asked(&mut rest)?;
    if !rest.is_empty() {
        return Err(4);
    }
    Ok(request)
}

/// Takes the three lines of a request off the input.
fn asked(rest: &mut &[u8]) -> Result<(Vec<u16>, Value), u32> {
    let code = field(rest, "code=").ok_or(1u32)?;
    let kind = field(rest, "kind=").ok_or(2u32)?;
    let parse = match kind {
        b"number" => number,
        b"instant" => instant,
        b"text" => text,
        _ => return Err(2),
    };
    let value = field(rest, "value=").and_then(parse).ok_or(3u32)?;
    Ok((units(code), value))
}

fn units(bytes: &[u8]) -> Vec<u16> {
    bytes.iter().map(|byte| u16::from(*byte)).collect()
}

/// Takes one line off the input and gives what stands behind its name.
fn field<'a>(rest: &mut &'a [u8], name: &str) -> Option<&'a [u8]> {
    let end = rest.iter().position(|byte| *byte == b'\n')?;
    let line = &rest[..end];
    *rest = &rest[end + 1..];
    if line.len() > LONGEST_LINE || !line.is_ascii() {
        return None;
    }
    line.strip_prefix(name.as_bytes())
}

fn all_digits(bytes: &[u8]) -> bool {
    !bytes.is_empty() && bytes.iter().all(u8::is_ascii_digit)
}

/// The number that digits spell, held at `most` so that no length can overflow.
fn held(digits: &[u8], most: u64) -> u64 {
    digits.iter().fold(0, |sum: u64, digit| {
        (sum * 10 + u64::from(digit - b'0')).min(most)
    })
}

fn number(bytes: &[u8]) -> Option<Value> {
    let magnitude = bytes.strip_prefix(b"-").unwrap_or(bytes);
    let mut parts = magnitude.splitn(2, |byte| *byte == b'.');
    let whole = parts.next()?;
    let decimals = parts.next();
    if !all_digits(whole) || !decimals.is_none_or(all_digits) {
        return None;
    }
    let digits = [whole, decimals.unwrap_or_default()].concat();
    let coefficient = held(&digits, TOO_LARGE as u64) as i64;
    Some(Value::Number {
        coefficient: if magnitude.len() < bytes.len() {
            -coefficient
        } else {
            coefficient
        },
        scale: decimals.map_or(0, |decimals| decimals.len() as u32),
    })
}

fn instant(bytes: &[u8]) -> Option<Value> {
    let solidus = bytes.iter().position(|byte| *byte == b'/')?;
    let (day, ms) = (&bytes[..solidus], &bytes[solidus + 1..]);
    let held = |digits| held(digits, u64::from(u32::MAX)) as u32;
    (all_digits(day) && all_digits(ms)).then(|| Value::Instant {
        day: held(day),
        ms: held(ms),
    })
}

fn text(bytes: &[u8]) -> Option<Value> {
    Some(Value::Text(units(bytes)))
}
