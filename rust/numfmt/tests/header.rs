//! The crate's numbers are those of include/numfmt.h.

use std::collections::HashMap;

use numfmt::{Answer, BOARD_ROWS, CODE_MOST, TABLE_WORDS, TEXT_MOST};

fn header() -> String {
    let header = concat!(env!("CARGO_MANIFEST_DIR"), "/../../include/numfmt.h");
    std::fs::read_to_string(header).expect("the header can be read")
}

/// The header's macros that stand for a number, without `NUMFMT_`.
fn macros() -> HashMap<String, usize> {
    let numbered = |line: &str| {
        let mut words = line.strip_prefix("#define NUMFMT_")?.split_whitespace();
        Some((words.next()?.to_string(), words.next()?.parse().ok()?))
    };
    header().lines().filter_map(numbered).collect()
}

/// `CodeLength` as the header has it: `CODE_LENGTH`.
fn header_name(answer: Answer) -> String {
    let mut name = String::new();
    for letter in format!("{answer:?}").chars() {
        if letter.is_uppercase() && !name.is_empty() {
            name.push('_');
        }
        name.push(letter.to_ascii_uppercase());
    }
    name
}

/// The header's number and text, the crate and the newest entry of CHANGELOG.md have one version.
#[test]
fn version_is_that_of_the_header() {
    let version = env!("CARGO_PKG_VERSION");
    let text = format!("#define NUMFMT_VERSION_TEXT \"{version}\"");
    assert!(header().lines().any(|line| line == text), "{text}");
    let number = version
        .split('.')
        .map(|part| part.parse::<usize>().expect("a part of a version"))
        .fold(0, |number, part| 100 * number + part);
    assert_eq!(macros()["VERSION"], number);
    let changes = concat!(env!("CARGO_MANIFEST_DIR"), "/../../CHANGELOG.md");
    let changes = std::fs::read_to_string(changes).expect("the changes can be read");
    let newest = changes.lines().find_map(|line| line.strip_prefix("## "));
    assert_eq!(newest, Some(version));
}

#[test]
fn sizes_are_those_of_the_header() {
    let macros = macros();
    assert_eq!(macros["TABLE_WORDS"], TABLE_WORDS);
    assert_eq!(macros["CODE_MOST"], CODE_MOST);
    assert_eq!(macros["TEXT_MOST"], TEXT_MOST);
    assert_eq!(macros["BOARD_ROWS"], BOARD_ROWS);
}

#[test]
fn answers_are_those_of_the_header() {
    let macros = macros();
    for answer in Answer::ALL {
        let name = header_name(answer);
        let number = usize::from(answer.number());
        assert_eq!(
            macros.get(&format!("ANSWER_{name}")),
            Some(&number),
            "{name}"
        );
        assert_eq!(Answer::of(answer.number()), Some(answer), "{name}");
    }
    let named = macros.keys().filter(|name| name.starts_with("ANSWER_"));
    assert_eq!(named.count(), Answer::ALL.len());
}

/// The lines of the header that are one string each are the sentences, in the answers' order.
#[test]
fn sentences_are_those_of_the_header() {
    let header = header();
    let string = |line| {
        str::strip_suffix(
            str::trim(line).trim_end_matches(',').strip_prefix('"')?,
            '"',
        )
    };
    let sentences: Vec<&str> = header.lines().filter_map(string).collect();
    assert_eq!(sentences, Answer::ALL.map(Answer::text));
}
