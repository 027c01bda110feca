//! Compares the oracle and the library with a list of known streams, whose path the caller gives.
//!
//! A row is `run call part times room answer place words table`: the part is fed so many times over as one
//! part, or the stream is ended in a room of so many words, which then begins with the table. Each run
//! starts a stream.

use std::process::ExitCode;

use crate::calls::{Calls, Prepared, Stream};
use crate::oracle::units;
use crate::vectors::{agree, parsed, run_calls};

/// What stands in a room before the end.
const UNTOUCHED: u16 = 0xA5C3;

pub fn run(path: &str, calls: &[&dyn Calls]) -> ExitCode {
    run_calls(path, calls, |calls| {
        let mut at = (String::new(), calls.stream(&calls.start()));
        move |fields: &[&str]| {
            if at.0 != fields[0] {
                at = (fields[0].to_string(), calls.stream(&calls.start()));
            }
            row(at.1.as_mut(), &fields[1..])
        }
    })
}

fn row(stream: &mut dyn Stream, fields: &[&str]) -> Result<(), String> {
    let [call, part, times, room, answer, place, words, table] = fields[..] else {
        return Err("a row has nine fields".to_string());
    };
    let expected = Prepared {
        answer: parsed(answer)?,
        place: parsed(place)?,
        words: parsed(words)?,
    };
    if call == "end" {
        return ended(stream, parsed(room)?, expected, table);
    }
    let fed = stream.feed(&units(part).repeat(parsed(times)?));
    agree("feeding", fed, (expected.answer, expected.place))
}

fn ended(
    stream: &mut dyn Stream,
    room: usize,
    expected: Prepared,
    table: &str,
) -> Result<(), String> {
    let mut lent = vec![UNTOUCHED; room];
    agree("ending", stream.end(&mut lent), expected)?;
    let mut wanted: Vec<u16> = table
        .split_whitespace()
        .map(parsed)
        .collect::<Result<_, _>>()?;
    wanted.resize(room, UNTOUCHED);
    agree("the room", lent, wanted)
}
