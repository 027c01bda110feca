//! Preparing: an accepted code's sections written as a table.

use super::answer;
use super::code::{
    means_minutes, number_shape, part_of_second, scientific_shape, sections,
    takes_negatives_by_fallback, Kind, NumberShape, Section,
};
use super::fraction::{fraction_shape, is_solidus, Denominator};
use super::table::{item, words, Entry, Item, GROUPING, NO_MINUS, TWELVE_HOUR};
use super::token::{Condition, Token};

/// What preparing gives; a refusal has no words.
#[derive(Clone, Debug, PartialEq, Eq)]
pub struct Prepared {
    pub answer: u16,
    pub place: u32,
    pub words: Vec<u16>,
}

fn refused(answer: u16, place: u32) -> Prepared {
    Prepared {
        answer,
        place,
        words: vec![],
    }
}

/// Prepares a code into a table room of `table_length` words.
pub fn prepare(code: &[u16], table_length: usize) -> Prepared {
    let sections = match sections(code) {
        Ok(sections) => sections,
        Err(refusal) => return refused(refusal.answer, refusal.place),
    };
    let entries: Vec<Entry> = (0..sections.len())
        .map(|index| entry(&sections, index))
        .collect();
    let words = words(&entries);
    if words.len() > table_length {
        return refused(answer::TABLE_ROOM, 0);
    }
    Prepared {
        answer: answer::DONE,
        place: 0,
        words,
    }
}

fn entry(sections: &[Section], index: usize) -> Entry {
    let section = &sections[index];
    let mut entry = Entry {
        kind: section.kind as u16,
        colour: section.colour,
        items: items(section),
        ..Entry::default()
    };
    if let Some(condition) = &section.condition {
        put_condition(&mut entry, condition);
    }
    match section.kind {
        Kind::Number => put_number(&mut entry, section),
        Kind::Scientific => put_scientific(&mut entry, section),
        _ => {}
    }
    if takes_negatives_by_fallback(sections, index) {
        entry.flags |= NO_MINUS;
    }
    if entry.items.iter().any(|i| i.number == item::HALF_DAY) {
        entry.flags |= TWELVE_HOUR;
    }
    entry
}

fn value_of(digits: &[u8]) -> u32 {
    digits
        .iter()
        .fold(0, |sum, digit| sum * 10 + u32::from(digit - b'0'))
}

fn put_condition(entry: &mut Entry, condition: &Condition) {
    let missing = 6 - condition.decimals.len() as u32;
    entry.operator = condition.operator as u16;
    entry.whole = value_of(&condition.whole);
    entry.millionths = value_of(&condition.decimals) * 10u32.pow(missing);
    let is_zero = entry.whole == 0 && entry.millionths == 0;
    entry.negative = u16::from(condition.negative && !is_zero);
}

fn put_number(entry: &mut Entry, section: &Section) {
    let shape = number_shape(&section.body).expect("a number section has a number's shape");
    entry.shift = (15 + 2 * shape.percents - 3 * shape.dividing_commas) as u16;
    entry.decimals = shape.decimal_places as u16;
    if shape.grouping {
        entry.flags |= GROUPING;
    }
}

fn put_scientific(entry: &mut Entry, section: &Section) {
    let shape = scientific_shape(&section.body).expect("a scientific section has its shape");
    entry.decimals = shape.mantissa.decimal_places as u16;
}

fn items(section: &Section) -> Vec<Item> {
    let body = &section.body;
    let last_fill = body.iter().rposition(|t| matches!(t, Token::Fill(_)));
    let mut items = Vec::new();
    let mut put = |number, operand| items.push(Item { number, operand });
    let mut powers = powers(section).into_iter();
    for (at, token) in body.iter().enumerate() {
        match token {
            Token::Bare(_) if is_solidus(body, at) => put(item::SOLIDUS, 0),
            Token::Bare(byte) => put(item::LITERAL, u16::from(*byte)),
            Token::Escaped(unit) => put(item::LITERAL, *unit),
            Token::Quoted(units) => units.iter().for_each(|unit| put(item::LITERAL, *unit)),
            Token::Blank(unit) => put(item::BLANK, *unit),
            Token::Fill(unit) if last_fill == Some(at) => put(item::FILL, *unit),
            Token::Place(place) => {
                // The zeros of a part of a second have no powers and are no items.
                if let Some(power) = powers.next() {
                    put(place_number(*place), (power + 16) as u16);
                }
            }
            Token::DigitRun(digits) => put(item::FIXED, value_of(digits) as u16),
            Token::Exponent { plus } => put(exponent_number(*plus), 0),
            Token::Percent => put(item::PERCENT, 0),
            Token::General => put(item::GENERAL, 0),
            Token::At => put(item::AT, 0),
            Token::Point if section.kind != Kind::DateTime => put(item::POINT, 0),
            Token::Point => match part_of_second(body, at) {
                0 => put(item::LITERAL, u16::from(b'.')),
                zeros => put(item::PART_OF_SECOND, zeros as u16),
            },
            Token::Comma if section.kind == Kind::DateTime => put(item::LITERAL, u16::from(b',')),
            Token::Run { length, .. } => put(run_number(body, at), *length as u16),
            Token::Elapsed { letter, length } => put(elapsed_number(*letter), *length as u16),
            Token::HalfDay { long } => put(item::HALF_DAY, 1 + u16::from(*long)),
            // An earlier fill and a number's comma are no items.
            _ => {}
        }
    }
    items
}

/// The powers of ten that the body's places stand for, one after another.
fn powers(section: &Section) -> Vec<i32> {
    let body = &section.body;
    let around_point = |shape: NumberShape| {
        let lowest = -(shape.decimal_places as i32);
        (lowest..shape.integer_places as i32).rev()
    };
    let down = |places: usize| (0..places as i32).rev();
    match section.kind {
        Kind::Number => number_shape(body).map(|shape| around_point(shape).collect()),
        Kind::Scientific => scientific_shape(body).map(|shape| {
            let mantissa = around_point(shape.mantissa);
            mantissa.chain(down(shape.exponent_places)).collect()
        }),
        Kind::Fraction => fraction_shape(body).map(|shape| {
            let below = match shape.denominator {
                Denominator::Places(places) => places,
                Denominator::Fixed(_) => 0,
            };
            let above = down(shape.integer_places).chain(down(shape.numerator_places));
            above.chain(down(below)).collect()
        }),
        _ => None,
    }
    .unwrap_or_default()
}

fn exponent_number(plus: bool) -> u16 {
    if plus {
        item::EXPONENT_PLUS
    } else {
        item::EXPONENT_MINUS
    }
}

fn place_number(place: u8) -> u16 {
    match place {
        b'0' => item::ZERO_PLACE,
        b'#' => item::HASH_PLACE,
        _ => item::QUERY_PLACE,
    }
}

fn run_number(body: &[Token], at: usize) -> u16 {
    match body[at] {
        Token::Run { letter: b'y', .. } => item::YEAR,
        Token::Run { letter: b'm', .. } if means_minutes(body, at) => item::MINUTE,
        Token::Run { letter: b'm', .. } => item::MONTH,
        Token::Run { letter: b'd', .. } => item::DAY,
        Token::Run { letter: b'h', .. } => item::HOUR,
        _ => item::SECOND,
    }
}

fn elapsed_number(letter: u8) -> u16 {
    match letter {
        b'h' => item::ELAPSED_HOURS,
        b'm' => item::ELAPSED_MINUTES,
        _ => item::ELAPSED_SECONDS,
    }
}
