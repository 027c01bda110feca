//! Showing a value through a table.

use std::cmp::Ordering;

use super::answer;
use super::code::Kind;
use super::days;
use super::figures::{exponent, fraction, general, rounded, Figures};
use super::fraction::Denominator;
use super::rules::{check_table, counted, fraction_parts};
use super::table::{entries, item, Entry, Item, GROUPING, NO_MINUS, TWELVE_HOUR};
use super::value::{Reading, Reason, Value};

const LITERAL: u16 = Kind::Literal as u16;
const GENERAL: u16 = Kind::General as u16;
const NUMBER: u16 = Kind::Number as u16;
const TEXT: u16 = Kind::Text as u16;
const DATE_TIME: u16 = Kind::DateTime as u16;
const SCIENTIFIC: u16 = Kind::Scientific as u16;
const FRACTION: u16 = Kind::Fraction as u16;

/// In milliseconds.
const DAY: u32 = 86_400_000;

/// Shows a value through the words lent as a table, in a room of that length.
pub fn show(table: &[u16], value: &Value, room_length: usize) -> Result<Reading, u16> {
    reasoned(table, value, room_length).map(|(reading, _)| reading)
}

/// Why it is shown so.
pub fn show_why(table: &[u16], value: &Value, room_length: usize) -> Result<Reason, u16> {
    reasoned(table, value, room_length).map(|(_, reason)| reason)
}

fn reasoned(table: &[u16], value: &Value, room_length: usize) -> Result<(Reading, Reason), u16> {
    if !check_table(table) {
        return Err(answer::TABLE);
    }
    let entries = entries(table).expect("a table that passes has its entries");
    if !value.in_range() {
        return Err(answer::RANGE);
    }
    let (reading, reason) = match value {
        Value::Text(text) => {
            let reading = show_text(&entries, text);
            let reason = Reason::of_text(reading.section);
            (reading, reason)
        }
        Value::Number { coefficient, scale } => show_number(&entries, *coefficient, *scale)?,
        Value::Instant { day, ms } => show_instant(&entries, *day, *ms)?,
    };
    if reading.text.len() > room_length {
        return Err(answer::TEXT_ROOM);
    }
    Ok((reading, reason))
}

/// The reason for a section that a number or an instant goes to, by the first of the sections that
/// takes it: those before it were tried.
fn reason(entries: &[Entry], index: usize, minus: u16, cut: u16) -> Reason {
    const FALLBACKS: [[u16; 3]; 4] = [[7, 7, 7], [1, 1, 1], [2, 3, 3], [4, 5, 6]];
    let said = |at: usize| match entries[at].operator {
        _ if at >= index => 0,
        0 => 2,
        _ => 1,
    };
    let n = counted(entries);
    let by_own = n > 0 && entries[index].operator != 0;
    Reason {
        section: index as u16,
        choice: if by_own { 0 } else { FALLBACKS[n][index] },
        tried: [said(0), if entries.len() > 1 { said(1) } else { 0 }],
        minus,
        cut,
    }
}

fn show_text(entries: &[Entry], text: &[u16]) -> Reading {
    let taker = match entries {
        [_, _, _, _] => Some(3),
        _ => entries.iter().position(|entry| entry.kind == TEXT),
    };
    let Some(index) = taker else {
        return Reading {
            text: text.to_vec(),
            colour: 0,
            section: 4,
            exact: true,
        };
    };
    let shown = spelled(&entries[index].items, |_| text.to_vec());
    reading(entries, index, shown, true)
}

fn reading(entries: &[Entry], index: usize, text: Vec<u16>, exact: bool) -> Reading {
    Reading {
        text,
        colour: entries[index].colour,
        section: index as u16,
        exact,
    }
}

/// What a section shows of a number without a minus, whether that is zero after rounding, whether it
/// equals the number, and how many decimals were cut.
struct Unsigned {
    text: Vec<u16>,
    rounds_to_zero: bool,
    exact: bool,
    cut: u16,
}

fn unsigned(text: Vec<u16>, figures: &Figures) -> Unsigned {
    Unsigned {
        text,
        rounds_to_zero: figures.is_zero(),
        exact: figures.exact,
        cut: figures.cut,
    }
}

/// Literals as they are, blanks as a space, fills as nothing, and what `shown` gives for the rest.
fn spelled(items: &[Item], shown: impl Fn(Item) -> Vec<u16>) -> Vec<u16> {
    let spell = |one: &Item| match one.number {
        item::LITERAL => vec![one.operand],
        item::BLANK => vec![u16::from(b' ')],
        item::FILL => vec![],
        _ => shown(*one),
    };
    items.iter().flat_map(spell).collect()
}

fn units(text: &str) -> Vec<u16> {
    text.bytes().map(u16::from).collect()
}

fn show_number(entries: &[Entry], coefficient: i64, scale: u32) -> Result<(Reading, Reason), u16> {
    let index = if counted(entries) == 0 {
        0
    } else {
        choose(entries, i128::from(coefficient), 10i128.pow(scale))?
    };
    let entry = &entries[index];
    let shown = match entry.kind {
        LITERAL => Unsigned {
            text: spelled(&entry.items, |_| vec![]),
            rounds_to_zero: false,
            exact: true,
            cut: 0,
        },
        NUMBER => number_text(entry, coefficient, scale),
        SCIENTIFIC => scientific_text(entry, coefficient, scale),
        FRACTION => fraction_text(entry, coefficient, scale),
        GENERAL | TEXT => {
            let (text, figures) = general(coefficient, scale).ok_or(answer::GENERAL)?;
            unsigned(spelled(&entry.items, |_| units(&text)), &figures)
        }
        _ => return Err(answer::SORT),
    };
    let held_back = [
        (2, coefficient >= 0),
        (3, entry.items.is_empty()),
        (4, entry.flags & NO_MINUS != 0),
        (5, shown.rounds_to_zero),
    ];
    let minus = held_back
        .iter()
        .find(|(_, applies)| *applies)
        .map_or(0, |(number, _)| *number);
    let mut text = units(if minus == 0 { "-" } else { "" });
    text.extend(shown.text);
    let reason = reason(entries, index, minus, shown.cut);
    Ok((reading(entries, index, text, shown.exact), reason))
}

fn show_instant(entries: &[Entry], day: u32, ms: u32) -> Result<(Reading, Reason), u16> {
    if counted(entries) == 0 {
        return Err(answer::SORT);
    }
    let since = i128::from(day) * i128::from(DAY) + i128::from(ms);
    let index = choose(entries, since, i128::from(DAY))?;
    let entry = &entries[index];
    let (text, exact) = match entry.kind {
        LITERAL => (spelled(&entry.items, |_| vec![]), true),
        DATE_TIME => {
            let twelve = entry.flags & TWELVE_HOUR != 0;
            let text = spelled(&entry.items, |one| {
                units(&instant_piece(one, day, ms, twelve))
            });
            (text, ms.is_multiple_of(finest_unit(&entry.items)))
        }
        _ => return Err(answer::SORT),
    };
    let reason = reason(entries, index, 2, 0);
    Ok((reading(entries, index, text, exact), reason))
}

/// In milliseconds; a day where no item shows less.
fn finest_unit(items: &[Item]) -> u32 {
    let unit = |one: &Item| match one.number {
        item::HOUR | item::ELAPSED_HOURS => 3_600_000,
        item::MINUTE | item::ELAPSED_MINUTES => 60_000,
        item::SECOND | item::ELAPSED_SECONDS => 1000,
        item::PART_OF_SECOND => 10u32.pow(3 - u32::from(one.operand)),
        _ => DAY,
    };
    items.iter().map(unit).min().unwrap_or(DAY)
}

/// The first section that takes top / bottom.
fn choose(entries: &[Entry], top: i128, bottom: i128) -> Result<usize, u16> {
    let n = counted(entries);
    let takes = |index: &usize| {
        let entry = &entries[*index];
        if entry.operator != 0 {
            return holds(entry, top, bottom);
        }
        match (n, *index) {
            (2, 0) => top >= 0,
            (3, 0) => top > 0,
            (3, 1) => top < 0,
            _ => true,
        }
    };
    (0..n).find(takes).ok_or(answer::NO_SECTION)
}

fn holds(entry: &Entry, top: i128, bottom: i128) -> bool {
    let magnitude = i128::from(entry.whole) * 1_000_000 + i128::from(entry.millionths);
    let limit = if entry.negative == 1 {
        -magnitude
    } else {
        magnitude
    };
    let order = (top * 1_000_000).cmp(&(limit * bottom));
    match entry.operator {
        1 => order == Ordering::Equal,
        2 => order == Ordering::Less,
        3 => order == Ordering::Greater,
        4 => order != Ordering::Greater,
        5 => order != Ordering::Less,
        _ => order != Ordering::Equal,
    }
}

fn instant_piece(one: Item, day: u32, ms: u32, twelve: bool) -> String {
    let run = usize::from(one.operand);
    match one.number {
        item::YEAR => days::year(day, run),
        item::MONTH => days::month(day, run),
        item::DAY => days::day(day, run),
        item::HOUR => days::hour(ms, run, twelve),
        item::MINUTE => days::minute(ms, run),
        item::SECOND => days::second(ms, run),
        item::PART_OF_SECOND => days::part_of_second(ms, run),
        item::ELAPSED_HOURS => days::elapsed(day, ms, b'h', run),
        item::ELAPSED_MINUTES => days::elapsed(day, ms, b'm', run),
        item::ELAPSED_SECONDS => days::elapsed(day, ms, b's', run),
        _ => days::half_day(ms, run == 2).to_string(),
    }
}

fn number_text(entry: &Entry, coefficient: i64, scale: u32) -> Unsigned {
    let exponent = i32::from(entry.shift) - 15 - scale as i32;
    let figures = rounded(coefficient, exponent, u32::from(entry.decimals));
    let grouping = entry.flags & GROUPING != 0;
    let text = figures_text(&entry.items, &figures, grouping);
    unsigned(text, &figures)
}

/// The mantissa's figures, and the exponent's, which are never rounded.
fn scientific_text(entry: &Entry, coefficient: i64, scale: u32) -> Unsigned {
    let mut parts = entry.items.splitn(2, |one| item::is_exponent(one.number));
    let mantissa = parts.next().unwrap_or_default();
    let behind = parts.next().unwrap_or_default();
    let shows_plus = entry.items[mantissa.len()].number == item::EXPONENT_PLUS;
    let decimals = u32::from(entry.decimals);
    let exponent = exponent(coefficient, scale, top_power(mantissa) + 1, decimals);
    let figures = rounded(coefficient, -(scale as i32) - exponent, decimals);
    let mark = match (exponent < 0, shows_plus) {
        (true, _) => "E-",
        (false, true) => "E+",
        (false, false) => "E",
    };
    let size = rounded(i64::from(exponent), 0, 0);
    let text = [
        figures_text(mantissa, &figures, false),
        units(mark),
        figures_text(behind, &size, false),
    ];
    unsigned(text.concat(), &figures)
}

/// An integer part, if there are places for it, and a fraction. They are zero when both are, and exact
/// when together they are the number.
fn fraction_text(entry: &Entry, coefficient: i64, scale: u32) -> Unsigned {
    let [front, above, below, rest] =
        fraction_parts(&entry.items).expect("a table that passes has a fraction's parts");
    let (denominator, width) = match below[0].number {
        item::FIXED => (
            Denominator::Fixed(below[0].operand),
            below[0].operand.to_string().len(),
        ),
        _ => (Denominator::Places(below.len()), below.len()),
    };
    let magnitude = i128::from(coefficient.unsigned_abs());
    let unit = 10i128.pow(scale);
    let (part, over) = fraction(magnitude % unit, unit, denominator);
    let whole = magnitude / unit;
    let beside = front.iter().any(|one| one.is_place());
    let (integer, numerator) = if beside {
        (whole + part / over, part % over)
    } else {
        (0, whole * over + part)
    };
    let middle = if beside && numerator == 0 {
        units(&" ".repeat(above.len() + 1 + width))
    } else {
        let top = figures_text(above, &Figures::of_whole(numerator), false);
        [top, units("/"), units(&denominator_text(below, over))].concat()
    };
    let text = [
        figures_text(front, &Figures::of_whole(integer), false),
        middle,
        spelled(rest, |_| vec![]),
    ];
    Unsigned {
        text: text.concat(),
        rounds_to_zero: integer == 0 && numerator == 0,
        exact: (integer * over + numerator) * unit == magnitude * over,
        cut: 0,
    }
}

/// Each spare place gives a 0 in front, a space behind or nothing.
fn denominator_text(places: &[Item], number: i128) -> String {
    let digits = number.to_string();
    let spare = &places[..places.len().saturating_sub(digits.len())];
    let times = |mark: u16| spare.iter().filter(|one| one.number == mark).count();
    let zeros = "0".repeat(times(item::ZERO_PLACE));
    let spaces = " ".repeat(times(item::QUERY_PLACE));
    zeros + &digits + &spaces
}

/// The power of the first place.
fn top_power(items: &[Item]) -> i32 {
    let first = items.iter().find(|one| one.is_place());
    first.map_or(0, |one| power(*one))
}

/// The text of items among which are places and a point.
fn figures_text(items: &[Item], figures: &Figures, grouping: bool) -> Vec<u16> {
    let top = top_power(items);
    let piece = |one: Item| match one.number {
        item::PERCENT => units("%"),
        item::POINT if top < 0 => [extra(figures, -1, grouping), units(".")].concat(),
        item::POINT => units("."),
        _ if power(one) == top && top >= 0 => {
            [extra(figures, top, grouping), place(figures, one, grouping)].concat()
        }
        _ => place(figures, one, grouping),
    };
    spelled(items, piece)
}

fn power(place: Item) -> i32 {
    i32::from(place.operand) - 16
}

/// The integer digits above 10^top, from the first nonzero one down.
fn extra(figures: &Figures, top: i32, grouping: bool) -> Vec<u16> {
    let powers = (top + 1..figures.integer_digits()).rev();
    let digit = |power| grouped(vec![figure(figures, power)], power, grouping);
    powers.flat_map(digit).collect()
}

fn figure(figures: &Figures, power: i32) -> u16 {
    u16::from(figures.digit(power) + b'0')
}

/// What one place shows.
fn place(figures: &Figures, one: Item, grouping: bool) -> Vec<u16> {
    let power = power(one);
    let shown = match (figures.is_insignificant_zero(power), one.number) {
        (true, item::HASH_PLACE) => vec![],
        (true, item::QUERY_PLACE) => units(" "),
        _ => vec![figure(figures, power)],
    };
    grouped(shown, power, grouping)
}

/// A digit of 10^3, 10^6 and so on is followed by a comma, a space there by a space.
fn grouped(mut shown: Vec<u16>, power: i32, grouping: bool) -> Vec<u16> {
    if grouping && power > 0 && power % 3 == 0 {
        match shown.first() {
            None => {}
            Some(unit) if *unit == u16::from(b' ') => shown.push(u16::from(b' ')),
            Some(_) => shown.push(u16::from(b',')),
        }
    }
    shown
}
