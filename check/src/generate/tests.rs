//! Tables against codes: what a table says is written back as a code, and preparing that code has to
//! give the table again exactly when it passes the rules. Only a code's length, or equal runs side by
//! side, may keep a table that passes from having such a code.

use super::code::code;
use super::table::table;
use super::value::{instant, number};
use crate::oracle::{answer, check_table, prepare, read, units, Value};
use crate::random::Random;

const CODES: u64 = 100_000;
const VALUES: u64 = 10_000;
const TABLES: u64 = 200_000;
const HEAD_WORDS: usize = 12;
const LONGEST_CODE: usize = 254;

#[test]
fn tables_that_pass_are_those_that_codes_make() {
    let (mut passed, mut made) = (0, 0);
    for index in 0..TABLES {
        let words = table(&mut Random::for_case(2, index));
        let passes = check_table(&words);
        let code = code_of(&words).unwrap_or_default();
        let prepared = prepare(&code, words.len());
        let makes = prepared.answer == answer::DONE && prepared.words == words;
        let no_length = code.is_empty() || code.len() > LONGEST_CODE;
        let excused = no_length || equal_runs_meet(&words);
        assert!(!makes || passes, "made but refused: {words:?}");
        assert!(
            !passes || makes || excused,
            "passes but not made: {words:?}"
        );
        passed += u64::from(passes);
        made += u64::from(makes);
    }
    assert!(passed > TABLES / 4 && made > TABLES / 5, "{passed} {made}");
}

/// An `E+` or `E-` stands in one code of ten at least, in accepted and in refused ones.
#[test]
fn one_code_in_ten_has_an_exponent() {
    assert_drawn(|code| {
        let has = |mark: &str| code.windows(2).any(|pair| pair == units(mark));
        has("E+") || has("E-")
    });
}

/// So does a solidus between a place and a place or digit.
#[test]
fn one_code_in_ten_has_a_fraction() {
    let among = |unit: u16, bytes: &[u8]| bytes.iter().any(|byte| u16::from(*byte) == unit);
    assert_drawn(|code| {
        code.windows(3).any(|three| {
            among(three[0], b"0#?") && among(three[1], b"/") && among(three[2], b"0#?123456789")
        })
    });
}

fn assert_drawn(has: impl Fn(&[u16]) -> bool) {
    let (mut accepted, mut refused) = (0, 0);
    for index in 0..CODES {
        let code = code(&mut Random::for_case(3, index));
        if has(&code) {
            match prepare(&code, usize::MAX).answer {
                answer::DONE => accepted += 1,
                _ => refused += 1,
            }
        }
    }
    assert!(
        accepted + refused > CODES / 10 && accepted > CODES / 20 && refused > CODES / 50,
        "{accepted} {refused}"
    );
}

/// Through each of these codes one number or instant in twenty at least is told exactly, and one in
/// twenty not.
#[test]
fn values_are_exact_and_not() {
    for code in [
        "0", "0.00", "0,", "0%", "General", "@", "0.0E+0", "# ?/?", "?/16",
    ] {
        assert_both_told(code, number);
    }
    for code in [
        "d", "d AM/PM", "h", "[h]", "h:mm", "[m]", "s", "s.0", "[s].00",
    ] {
        assert_both_told(code, instant);
    }
}

fn assert_both_told(code: &str, drawn: fn(&mut Random) -> Value) {
    let told = |index| {
        let value = drawn(&mut Random::for_case(5, index));
        read(&units(code), &value, usize::MAX).map(|reading| reading.exact)
    };
    let told: Vec<bool> = (0..VALUES).flat_map(told).collect();
    let exact = told.iter().filter(|exact| **exact).count();
    let about = told.len() - exact;
    assert!(exact.min(about) > told.len() / 20, "{code} {exact} {about}");
}

/// Each section's head and items, if the words are as many as their counts say.
fn sections(words: &[u16]) -> Option<Vec<(&[u16], &[u16])>> {
    let count = usize::from(*words.first()?);
    let mut items_at = 1 + count * HEAD_WORDS;
    let mut found = Vec::new();
    for section in 0..count {
        let head_at = 1 + section * HEAD_WORDS;
        let head = words.get(head_at..head_at + HEAD_WORDS)?;
        let items_end = items_at + 2 * usize::from(head[HEAD_WORDS - 1]);
        found.push((head, words.get(items_at..items_end)?));
        items_at = items_end;
    }
    Some(found)
}

/// A code of runs that meet reads as one longer run, or is broken.
fn equal_runs_meet(words: &[u16]) -> bool {
    let is_run = |number: u16| (11..=16).contains(&number);
    let letter = |number: u16| if number == 15 { 12 } else { number };
    sections(words)
        .unwrap_or_default()
        .iter()
        .any(|(_, items)| {
            let numbers: Vec<u16> = items.chunks(2).map(|item| item[0]).collect();
            let meet = |pair: &[u16]| is_run(pair[0]) && letter(pair[0]) == letter(pair[1]);
            numbers.windows(2).any(meet)
        })
}

fn code_of(words: &[u16]) -> Option<Vec<u16>> {
    let parts: Option<Vec<Vec<u16>>> = sections(words)?.iter().map(section_code).collect();
    Some(parts?.join(&u16::from(b';')))
}

fn section_code((head, items): &(&[u16], &[u16])) -> Option<Vec<u16>> {
    let mut out = Vec::new();
    if head[1] > 0 {
        out.extend(units(&format!("[Color{}]", head[1])));
    }
    if head[2] > 0 {
        out.extend(units(&condition_code(head)?));
    }
    let places = |item: &&[u16]| (4..=6).contains(&item[0]);
    let mut grouping = head[9] & 1 != 0;
    for item in items.chunks(2) {
        out.extend(item_code(item)?);
        // One comma behind the first integer place groups, if another integer place follows it.
        if grouping && places(&item) {
            out.push(u16::from(b','));
            grouping = false;
        }
    }
    let percents = items.chunks(2).filter(|item| item[0] == 8).count();
    let factors = (15 + 2 * percents).checked_sub(usize::from(head[8]));
    if head[0] == 2 {
        out.extend(std::iter::repeat_n(u16::from(b','), factors? / 3));
    }
    Some(out)
}

fn condition_code(head: &[u16]) -> Option<String> {
    let operators = ["=", "<", ">", "<=", ">=", "<>"];
    let operator = operators.get(usize::from(head[2]) - 1)?;
    let joined = |low: u16, high: u16| u32::from(low) + (u32::from(high) << 16);
    let minus = if head[3] == 1 { "-" } else { "" };
    let whole = joined(head[4], head[5]);
    let millionths = format!("{:06}", joined(head[6], head[7]));
    let decimals = millionths.trim_end_matches('0');
    let point = if decimals.is_empty() { "" } else { "." };
    Some(format!("[{operator}{minus}{whole}{point}{decimals}]"))
}

fn item_code(item: &[u16]) -> Option<Vec<u16>> {
    let marked = |mark: u8| vec![u16::from(mark), item[1]];
    let run = |letter: &str| units(&letter.repeat(usize::from(item[1])));
    let elapsed = |letter: &str| units(&format!("[{}]", letter.repeat(usize::from(item[1]))));
    Some(match item[0] {
        1 => marked(b'\\'),
        2 => marked(b'_'),
        3 => marked(b'*'),
        4..=6 => vec![u16::from(b"0#?"[usize::from(item[0]) - 4])],
        7..=10 => units([".", "%", "General", "@"][usize::from(item[0]) - 7]),
        11 => run("y"),
        12 | 15 => run("m"),
        13 => run("d"),
        14 => run("h"),
        16 => run("s"),
        17 => [units("."), run("0")].concat(),
        18 => elapsed("h"),
        19 => elapsed("m"),
        20 => elapsed("s"),
        21 => units(if item[1] == 1 { "A/P" } else { "AM/PM" }),
        22 => units("E+"),
        23 => units("E-"),
        24 => units("/"),
        25 => units(&item[1].to_string()),
        _ => return None,
    })
}
