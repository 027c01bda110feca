mod board;
mod exact;
mod fractions;
mod reasons;

use super::{answer, check_table, prepare, read, section, show, units, Reading, Value};

const ROOM: usize = 4096;

fn number(coefficient: i64, scale: u32) -> Value {
    Value::Number { coefficient, scale }
}

fn both_ways(code: &str, value: &Value) -> Result<String, u16> {
    let text = |reading: Reading| String::from_utf16(&reading.text).expect("plain text");
    reading_both_ways(code, value).map(text)
}

fn reading_both_ways(code: &str, value: &Value) -> Result<Reading, u16> {
    let prepared = prepare(&units(code), 557);
    assert_eq!(prepared.answer, answer::DONE, "{code}");
    let through_table = show(&prepared.words, value, ROOM);
    assert_eq!(through_table, read(&units(code), value, ROOM), "{code}");
    through_table
}

#[test]
fn the_twelve_cases() {
    let cases = [
        ("#,##0", number(12000, 0), Ok("12,000")),
        ("0.0,,", number(12200000, 0), Ok("12.2")),
        ("#.0#", number(123, 0), Ok("123.0")),
        ("000-00-0000", number(123456789, 0), Ok("123-45-6789")),
        ("0%", number(-3, 0), Ok("-300%")),
        ("0", number(-3, 1), Ok("0")),
        ("0.0", number(-5, 2), Ok("-0.1")),
        ("[>100]0;0", number(-5, 0), Ok("-5")),
        ("#,##0;(#,##0)", number(-3, 0), Ok("(3)")),
        ("[>=10]0;[<0]0", number(5, 0), Err(answer::NO_SECTION)),
        (
            "h.mm AM/PM",
            Value::Instant {
                day: 0,
                ms: 53_760_000,
            },
            Ok("2.56 PM"),
        ),
        (
            "d-mmm-yy",
            Value::Instant { day: 28086, ms: 0 },
            Ok("22-Nov-76"),
        ),
    ];
    for (code, value, expected) in cases {
        let expected = expected.map(str::to_string);
        assert_eq!(both_ways(code, &value), expected, "{code}");
    }
}

#[test]
fn scientific_sections() {
    let cases = [
        ("#0.0E+0", number(12_200_000, 0), "12.2E+6"),
        ("0E+0", number(94, 2), "9E-1"),
        ("0E+0", number(95, 2), "1E+0"),
        ("##0.0E+0", number(99_995, 2), "1.0E+3"),
        ("##0.0E+0", number(3, 1), "300.0E-3"),
        ("0-0E+0", number(1230, 0), "1-2E+2"),
        ("#.00E+00", number(0, 0), ".00E+00"),
        ("0E-0", number(5, 0), "5E0"),
        ("0E+0", number(-1, 15), "-1E-15"),
        ("0E+0\"x\"0", number(1_000_000_000_000, 0), "1E+1x2"),
    ];
    for (code, value, expected) in cases {
        assert_eq!(both_ways(code, &value), Ok(expected.to_string()), "{code}");
    }
    let instant = Value::Instant { day: 1, ms: 0 };
    assert_eq!(both_ways("0E+0", &instant), Err(answer::SORT));
}

#[test]
fn scientific_refusals() {
    let of = |code: &str| {
        let prepared = prepare(&units(code), 557);
        (prepared.answer, prepared.place)
    };
    for code in [
        "E+0", "0E+", ".0E+0", "0,0E+0", "0%E+0", "0E+0E+0", "0E+0.", "0E+0?", "0/0E+0", "0E+0/0",
        "d E+0", "0E+0000,",
    ] {
        assert_eq!(of(code), (answer::KIND, 0), "{code}");
    }
    for code in ["0E0", "0e+0", "0E\"x\"+0"] {
        assert_eq!(of(code), (answer::TOKEN, 1), "{code}");
    }
    assert_eq!(of("0E+0000"), (answer::LIMIT, 0));
    assert_eq!(of("0;;;0E+0"), (answer::STANDING, 3));
}

#[test]
fn the_table_of_one_place() {
    let prepared = prepare(&units("0"), 15);
    let words = vec![1, 2, 0, 0, 0, 0, 0, 0, 0, 15, 0, 0, 1, 4, 16];
    assert_eq!(prepared.words, words);
    assert!(check_table(&words));
    assert_eq!(prepare(&units("0"), 14).answer, answer::TABLE_ROOM);
}

#[test]
fn sections_respect_quotes() {
    let code = units("0;\";\";;x");
    assert_eq!(section(&code, 0), (0, 0));
    let code = units("0;\";\";");
    assert_eq!(section(&code, 1), (2, 3));
    assert_eq!(section(&code, 2), (6, 0));
    assert_eq!(section(&code, 3), (0, 0));
}

#[test]
fn the_program_writes_five_lines() {
    let written = |value: &str| {
        let request = format!("code=#,##0\nkind=number\nvalue={value}\n");
        String::from_utf8(super::answer_lines(request.as_bytes())).expect("plain text")
    };
    let exact = "answer=0\nplace=0\ncolour=0\nexact=1\ntext=12,000\n";
    assert_eq!(written("12000"), exact);
    let about = "answer=0\nplace=0\ncolour=0\nexact=0\ntext=12,000\n";
    assert_eq!(written("12000.1"), about);
    let refused = "answer=9\nplace=0\ncolour=0\nexact=0\ntext=\n";
    assert_eq!(written("1000000000000000"), refused);
}

#[test]
fn the_section_is_told_behind_the_five_lines() {
    let told = |request: &[u8]| {
        String::from_utf8(super::answer_lines_and_section(request)).expect("plain text")
    };
    let plain = told(b"code=0\nkind=text\nvalue=me\n");
    assert_eq!(
        plain,
        "answer=0\nplace=0\ncolour=0\nexact=1\ntext=me\nsection=4\n"
    );
    assert!(told(b"code=0;0\nkind=number\nvalue=-1\n").ends_with("section=1\n"));
    assert!(told(b"code=0;\nkind=none\nvalue=-1\n").ends_with("section=0\n"));
}

#[test]
fn the_first_malformed_line_is_told() {
    let long = format!("code={}\nkind=number\nvalue=1\n", "x".repeat(2044));
    let requests: [(&[u8], u32); 12] = [
        (b"", 1),
        (b"code=0", 1),
        (b"Code=0\nkind=number\nvalue=1\n", 1),
        (b"code=\x80\nkind=none\nvalue=1\n", 1),
        (long.as_bytes(), 1),
        (b"code=0\nkind=numbers\nvalue=x\n", 2),
        (b"code=0\nkind=number\nvalue=\n", 3),
        (b"code=0\nkind=number\nvalue=1", 3),
        (b"code=0\nkind=number\nvalue=1.\n\n", 3),
        (b"code=0\nkind=instant\nvalue=-1/0\n", 3),
        (b"code=0\nkind=instant\nvalue=1\n", 3),
        (b"code=0\nkind=number\nvalue=1\n\n", 4),
    ];
    for (request, line) in requests {
        let told = format!("answer=14\nplace={line}\ncolour=0\nexact=0\ntext=\n");
        assert_eq!(super::answer_lines(request), told.into_bytes());
    }
}

#[test]
fn a_refused_code_goes_before_a_value_out_of_range() {
    let written = |value: &str, code: &str| {
        let request = format!("code={code}\nkind=number\nvalue={value}\n");
        String::from_utf8(super::answer_lines(request.as_bytes())).expect("plain text")
    };
    assert!(written("1000000000000000", ".").starts_with("answer=4\n"));
    assert!(written("1000000000000000", "0").starts_with("answer=9\n"));
    assert!(written("0.0000000000000000", "0").starts_with("answer=9\n"));
    assert!(written("000000000000000000007", "0").ends_with("text=7\n"));
}
