//! What the command line, or a line of a list, asks for.

use std::ffi::OsString;

use crate::value::Kind;

pub const USAGE: &str = "\
usage: ./preview [--plain | --why] CODE [number|instant|text] VALUE..
       ./preview --file LIST
       ./preview --help
";

pub const HELP: &str = r#"
Shows each value through a number format code, a row each: the value, and the text that the wall shows. A note in brackets
tells the colour, that the text is empty [nothing], that no section of the code shows texts [as it is], or that the value was
rounded or cut [about]. A refused code is printed with a mark under the sign or section that is at fault.

  ./preview '#,##0;[Red]-#,##0' 12000 -1317
  ./preview 'd-mmm-yy h:mm' '2024-10-14 16:36'
  ./preview '"to "@' text 2024-10-14

Without a kind a value is what it reads as:
  a number    an optional minus, digits, and optionally a point and digits: 12000, -0.5
  an instant  a date from 1900-01-01 to 9999-12-31, perhaps with a time: 2024-10-14, 2024-10-14 16:36,
              2024-10-14 16:36:03, 2024-10-14 16:36:03.750; or day/millisecond: 45579/59763750
              (day 1 is 1900-01-01, day 60 is 1900-02-29)
  a text      anything else; but digits with signs that no number has, as .5 or 1,000 or +5, are refused

  --plain      prints five lines for each value, answer=, place=, colour=, exact= and text=, as the program show does.
               Behind a kind a value is read as that program reads it: an instant is day/millisecond.
  --why        says below each row why: the section and how it was chosen, the sections tried before it, the minus or what held
               it back, and how many decimals were cut.
  --file LIST  takes lines of a code, a tab and values with tabs between (or a kind and values) from a file in UTF-8.
               Each line is reported with its number, and a bad line does not stop the others. Lines may end in LF or
               CR LF, the last in nothing; empty lines are passed over.
  --           ends the options, for a code that begins with two minuses and a letter.

Text is coloured on a terminal, unless NO_COLOR is set. A control character is shown by its picture, but for --plain.

Exit status: 0 all is shown; 1 something was refused; 2 the command was not understood; 3 the output could not be
written; 4 the program could not be built.
"#;

pub enum Asked {
    Help,
    Page(Request),
    Plain(Request),
    /// Rows, each with its reason.
    Why(Request),
    /// The contents of a list.
    List(Vec<u8>),
}

/// Values to show through a code.
pub struct Request {
    pub code: String,
    pub kind: Option<Kind>,
    pub values: Vec<String>,
}

impl Request {
    /// A code, perhaps a kind, and values. A lone word of a kind is no value: the value was forgotten.
    pub fn from_words(words: &[&str]) -> Result<Request, &'static str> {
        let [code, rest @ ..] = words else {
            return Err("a code is missing");
        };
        let kind = rest.first().and_then(|word| Kind::named(word));
        let values = if kind.is_some() { &rest[1..] } else { rest };
        if values.is_empty() {
            return Err("a value is missing behind the code");
        }
        Ok(Request {
            code: code.to_string(),
            kind,
            values: values.iter().map(|value| value.to_string()).collect(),
        })
    }
}

/// What the arguments ask for, or why they can't be understood.
pub fn read(arguments: impl Iterator<Item = OsString>) -> Result<Asked, String> {
    let words = words(arguments)?;
    let words: Vec<&str> = words.iter().map(String::as_str).collect();
    match words.as_slice() {
        ["--help"] => Ok(Asked::Help),
        ["--file", path] => list(path),
        ["--file", ..] => Err(misuse("--file takes the name of a list, and nothing else")),
        ["--plain", rest @ ..] => request(rest).map(Asked::Plain),
        ["--why", rest @ ..] => request(rest).map(Asked::Why),
        rest => request(rest).map(Asked::Page),
    }
}

fn words(arguments: impl Iterator<Item = OsString>) -> Result<Vec<String>, String> {
    let word = |(number, argument): (usize, OsString)| {
        argument
            .into_string()
            .map_err(|_| misuse(&format!("argument {number} is no UTF-8")))
    };
    (1..).zip(arguments).map(word).collect()
}

fn list(path: &str) -> Result<Asked, String> {
    let contents = std::fs::read(path).map_err(|error| format!("can't read {path}: {error}\n"))?;
    Ok(Asked::List(contents))
}

fn request(words: &[&str]) -> Result<Request, String> {
    let words = match words {
        ["--", rest @ ..] => rest,
        [option, ..] if is_option(option) => {
            return Err(misuse(&format!("{option} can't stand here")))
        }
        _ => words,
    };
    Request::from_words(words).map_err(misuse)
}

fn is_option(word: &str) -> bool {
    word.strip_prefix("--")
        .is_some_and(|name| name.starts_with(|sign: char| sign.is_ascii_alphabetic()))
}

fn misuse(what: &str) -> String {
    format!("{what}\n{USAGE}")
}
