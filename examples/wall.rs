//! A river wall: each row's code is prepared, and its value put on the board through the table. When all rows are known, they are
//! drawn in their colours, and a value that was rounded or cut is marked behind the widest. A row whose code or value is refused says
//! so in its place. After `--why` each row is followed by the numbers of its reason.
//!
//!     tools/archive
//!     cargo run --manifest-path rust/Cargo.toml --example wall

use numfmt::{Board, Refusal, Shown, Table, Value};

const DIFFERENCE: &str = r#"+#,##0;[Red]-#,##0;"no change""#;

/// Label, code, value.
const ROWS: &[(&str, &str, Value<'static>)] = &[
    ("Today", "dddd, d mmmm yyyy", instant(45579, 0)),
    ("Passed this year", r##"#,##0" salmon""##, number(12408, 0)),
    ("Against last year", DIFFERENCE, number(-1317, 0)),
    ("Against yesterday", DIFFERENCE, number(24, 0)),
    ("Trout", DIFFERENCE, number(0, 0)),
    ("Water", r#"0.0" °C""#, number(1125, 2)),
    ("Last seen", "h:mm AM/PM", instant(45579, 59_763_000)),
    ("The ladder", r#""now: "@"#, Value::Text("gates open")),
];

const fn number(coefficient: i64, scale: u32) -> Value<'static> {
    Value::Number { coefficient, scale }
}

const fn instant(day: u32, millisecond: u32) -> Value<'static> {
    Value::Instant { day, millisecond }
}

/// The terminal's colour for a named one; its default for none and for colours by number.
fn terminal_colour(colour: u16) -> u16 {
    match colour {
        1 => 30, // black
        2 => 37, // white
        3 => 31, // red
        4 => 32, // green
        5 => 34, // blue
        6 => 33, // yellow
        7 => 35, // magenta
        8 => 36, // cyan
        _ => 39,
    }
}

/// A text that no section shows was not meant by the code; a value that is not exact was rounded or cut.
fn mark(shown: &Shown) -> &'static str {
    match shown {
        Shown { section: 4, .. } => "(as it is)",
        Shown { exact: false, .. } => "(about)",
        _ => "",
    }
}

/// The mark stands behind the widest text. (Lengths are counted in units, which here are characters.)
fn row(line: &Result<Shown, Refusal>, widest: usize) -> String {
    match line {
        Ok(shown) => {
            let padding = widest.saturating_sub(shown.text.encode_utf16().count());
            let drawn = format!(
                "\x1b[{}m{}\x1b[0m{:padding$} {}",
                terminal_colour(shown.colour),
                shown.text,
                "",
                mark(shown)
            );
            drawn.trim_end().to_string()
        }
        Err(refusal) => format!("refused: {refusal}"),
    }
}

/// The numbers of include/numfmt.h.
fn reason(code: &str, value: &Value) -> Result<String, Refusal> {
    let why = Table::prepare(code)?.why(value)?;
    Ok(format!(
        "section {}, choice {}, tried {} {}, minus {}, cut {}",
        why.section, why.choice, why.first, why.second, why.minus, why.cut
    ))
}

fn main() {
    let with_reasons = std::env::args().nth(1).is_some_and(|word| word == "--why");
    let mut board = Board::empty();
    let mut lines = Vec::new();
    for (at, (_, code, value)) in (0..).zip(ROWS) {
        lines.push(Table::prepare(code).and_then(|table| board.put(at, &table, value)));
    }
    for ((label, code, value), line) in ROWS.iter().zip(&lines) {
        println!("{label:18} {}", row(line, board.widest() as usize));
        if with_reasons {
            println!("{:18} {}", "", reason(code, value).unwrap_or_default());
        }
    }
}
