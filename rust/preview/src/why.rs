//! Why a value is shown as it is, in a sentence.

use numfmt::calls::Reason;
use numfmt::{section, Table};

/// The kind of a text section, in the first word of its head; and how many words a head has.
const TEXT: u16 = 3;
const HEAD_WORDS: usize = 12;

/// The sections of a table by their number: all, and those that count, which are neither text nor fourth.
struct Sections {
    all: u16,
    counted: usize,
}

impl Sections {
    fn of(table: &Table) -> Sections {
        let words = table.words();
        let kind = |n: &usize| words[1 + HEAD_WORDS * n];
        let first_three = 0..usize::from(words[0]).min(3);
        Sections {
            all: words[0],
            counted: first_three.filter(|n| kind(n) != TEXT).count(),
        }
    }
}

/// The reason for what `table`, which was made from `code`, shows.
pub fn sentence(code: &str, table: &Table, reason: &Reason) -> String {
    let sections = Sections::of(table);
    let mut parts = vec![chosen(code, &sections, reason)];
    parts.extend(tried(code, &sections, 0, reason.first));
    parts.extend(tried(code, &sections, 1, reason.second));
    parts.extend(minus(reason.minus).map(str::to_string));
    parts.extend(cut(reason.cut));
    parts.join("; ")
}

fn chosen(code: &str, sections: &Sections, reason: &Reason) -> String {
    let name = match sections.all {
        _ if reason.choice == 9 => return "by no section, as it is".to_string(),
        1 => "the only section".to_string(),
        all => format!("section {} of {all}", reason.section + 1),
    };
    let since = match reason.choice {
        0 => format!(
            "since its condition {} holds",
            condition(code, reason.section)
        ),
        1 => "which takes every value".to_string(),
        2 => "since the value is at least 0".to_string(),
        4 => "since the value is above 0".to_string(),
        5 => "since the value is below 0".to_string(),
        7 => "as General where @ stands".to_string(),
        8 => "which takes texts".to_string(),
        _ => "which takes the rest".to_string(),
    };
    format!("{name}, {since}")
}

/// What is said of section n, where it was tried.
fn tried(code: &str, sections: &Sections, n: u16, said: u16) -> Option<String> {
    let why = match (said, sections.counted, n) {
        (0, ..) => return None,
        (1, ..) => format!("its condition {} is false", condition(code, n)),
        (_, 2, _) => "the value is below 0".to_string(),
        (_, _, 0) => "the value is not above 0".to_string(),
        _ => "the value is not below 0".to_string(),
    };
    let name = if n == 0 { "first" } else { "second" };
    Some(format!("the {name} was tried: {why}"))
}

/// The bracket with the condition of section n, as it is written.
fn condition(code: &str, n: u16) -> &str {
    let mut rest = section(code, n.into());
    while let Some((bracket, behind)) = rest.split_once(']') {
        let inside = bracket.strip_prefix('[').unwrap_or_default();
        if inside.starts_with(['=', '<', '>']) {
            return &rest[..=bracket.len()];
        }
        rest = behind;
    }
    ""
}

/// Of a value that is not below 0 nothing is said.
fn minus(said: u16) -> Option<&'static str> {
    match said {
        0 => Some("a minus was added"),
        3 => Some("no minus: the section is empty"),
        4 => Some("no minus: the section is for negative values"),
        5 => Some("no minus: what is shown is nought"),
        _ => None,
    }
}

fn cut(decimals: u16) -> Option<String> {
    match decimals {
        0 => None,
        1 => Some("1 decimal was cut".to_string()),
        more => Some(format!("{more} decimals were cut")),
    }
}

#[cfg(test)]
mod tests {
    use super::*;
    use numfmt::Value;

    fn told(code: &str, value: Value) -> String {
        let table = Table::prepare(code).expect("a code");
        let reason = table.why(&value).expect("a reason");
        sentence(code, &table, &reason)
    }

    fn number(coefficient: i64, scale: u32) -> Value<'static> {
        Value::Number { coefficient, scale }
    }

    #[test]
    fn sections_and_conditions_are_named() {
        assert_eq!(
            told("0", number(5, 0)),
            "the only section, which takes every value"
        );
        assert_eq!(
            told("[Red][>100]0;0;0", number(-525, 2)),
            "section 2 of 3, since the value is below 0; the first was tried: its condition [>100] is false; \
             no minus: the section is for negative values; 2 decimals were cut"
        );
        assert_eq!(
            told("0;[<-10]0;0", number(-5, 0)),
            "section 3 of 3, which takes the rest; the first was tried: the value is not above 0; \
             the second was tried: its condition [<-10] is false; a minus was added"
        );
        assert_eq!(
            told("0;[<-10]0;0", number(-50, 0)),
            "section 2 of 3, since its condition [<-10] holds; the first was tried: the value is not above 0; a minus was added"
        );
        assert_eq!(
            told("0;0", number(-3, 1)),
            "section 2 of 2, which takes the rest; the first was tried: the value is below 0; \
             no minus: the section is for negative values; 1 decimal was cut"
        );
    }

    #[test]
    fn texts_and_general() {
        assert_eq!(told("0", Value::Text("x")), "by no section, as it is");
        assert_eq!(
            told("0;@", Value::Text("x")),
            "section 2 of 2, which takes texts"
        );
        assert_eq!(
            told("@", number(-5, 0)),
            "the only section, as General where @ stands; a minus was added"
        );
    }

    #[test]
    fn what_holds_the_minus_back() {
        assert_eq!(told("0", number(-3, 1)), "the only section, which takes every value; no minus: what is shown is nought; 1 decimal was cut");
        assert_eq!(
            told("0;;0", number(-5, 0)),
            "section 2 of 3, since the value is below 0; the first was tried: the value is not above 0; no minus: the section is empty"
        );
    }
}
