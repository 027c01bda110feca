//! 02's P6: why a value is shown as it is.

use super::number;
use crate::oracle::{answer, asked_why, prepare, read_why, show_why, units, Reason, Value};

const ROOM: usize = 4096;

fn both_ways(code: &str, value: &Value) -> Result<Reason, u16> {
    let code = units(code);
    let reason = read_why(&code, value, ROOM);
    let table = prepare(&code, usize::MAX).words;
    assert_eq!(show_why(&table, value, ROOM), reason);
    reason
}

/// Section, choice, what is said of the first two sections, minus and cut.
type Row = (&'static str, Value, [u16; 6]);

fn assert_told(rows: &[Row]) {
    for (code, value, told) in rows {
        let [section, choice, first, second, minus, cut] = *told;
        let expected = Reason {
            section,
            choice,
            tried: [first, second],
            minus,
            cut,
        };
        assert_eq!(both_ways(code, value), Ok(expected), "{code} {value:?}");
    }
}

#[test]
fn choices_and_sections_tried() {
    assert_told(&[
        ("0", number(5, 0), [0, 1, 0, 0, 2, 0]),
        ("[>5]General", number(7, 0), [0, 0, 0, 0, 2, 0]),
        ("0;0", number(0, 0), [0, 2, 0, 0, 2, 0]),
        ("[>100]0;0;@", number(-5, 0), [1, 3, 1, 0, 0, 0]),
        ("0;[<-10]0;0", number(-5, 0), [2, 6, 2, 1, 0, 0]),
        ("0;[<-10]0;0", number(-50, 0), [1, 0, 2, 0, 0, 0]),
        ("@", number(-5, 0), [0, 7, 0, 0, 0, 0]),
        ("0;@", Value::Text(units("x")), [1, 8, 0, 0, 1, 0]),
        ("0", Value::Text(units("x")), [4, 9, 0, 0, 1, 0]),
        (
            "h;h;\"zero\"",
            Value::Instant { day: 0, ms: 0 },
            [2, 6, 2, 2, 2, 0],
        ),
    ]);
}

#[test]
fn what_holds_the_minus_back() {
    assert_told(&[
        ("0;;0", number(-5, 0), [1, 5, 2, 0, 3, 0]),
        ("0;0", number(-3, 1), [1, 3, 2, 0, 4, 1]),
        ("0", number(-3, 1), [0, 1, 0, 0, 5, 1]),
        ("# ?/?", number(-1, 2), [0, 1, 0, 0, 5, 0]),
        ("\"x\"", number(-1, 3), [0, 1, 0, 0, 0, 0]),
    ]);
}

#[test]
fn decimals_cut() {
    assert_told(&[
        ("0", number(1250, 2), [0, 1, 0, 0, 2, 1]),
        ("0,", number(12000, 0), [0, 1, 0, 0, 2, 0]),
        ("0%", number(12345, 4), [0, 1, 0, 0, 2, 2]),
        ("0,,,,,", number(-1, 15), [0, 1, 0, 0, 5, 30]),
        ("General", number(100_000_000_004, 11), [0, 1, 0, 0, 2, 2]),
        ("0E+0", number(96, 1), [0, 1, 0, 0, 2, 2]),
        ("# ?/?", number(3, 1), [0, 1, 0, 0, 2, 0]),
    ]);
}

#[test]
fn a_refused_show_gives_its_answer() {
    let refused = |code: &str, value: &Value| both_ways(code, value);
    assert_eq!(refused("h", &number(5, 0)), Err(answer::SORT));
    assert_eq!(refused("0", &number(1, 16)), Err(answer::RANGE));
    let code = units("0.00");
    assert_eq!(read_why(&code, &number(-1, 0), 4), Err(answer::TEXT_ROOM));
}

#[test]
fn a_fourth_line_gives_the_room() {
    let told = |room: &str| asked_why(format!("code=0\nkind=text\nvalue=weir\n{room}").as_bytes());
    assert_eq!(told("room=4\n"), Ok(Reason::of_text(4)));
    assert_eq!(told("room=3\n"), Err(answer::TEXT_ROOM));
    assert_eq!(told("room=99999999999999999999\n"), Ok(Reason::of_text(4)));
    for malformed in ["room=4", "room=\n", "room=-4\n", "rooms=4\n", ""] {
        assert_eq!(told(malformed), Err(answer::LINE), "{malformed}");
    }
    let broken = b"code=0\"\nkind=text\nvalue=weir\nroom=0\n";
    assert_eq!(asked_why(broken), Err(answer::TOKEN));
}
