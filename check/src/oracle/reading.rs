//! A reading straight off an accepted code: its own tokens and sections, through no table.

use std::cmp::Ordering;

use super::answer;
use super::code::{
    counted, means_minutes, number_shape, part_of_second, scientific_shape, sections,
    takes_negatives_by_fallback, Kind, NumberShape, Section,
};
use super::days;
use super::decimal::{exponent, general, mixed, rounded, Decimal};
use super::fraction::fraction_shape;
use super::token::{Condition, Operator, Token};
use super::value::{Reading, Reason, Value};

/// What the code shows for the value in a room of that length, or the refusal.
/// A refused code gives its own answer.
pub fn read(code: &[u16], value: &Value, room_length: usize) -> Result<Reading, u16> {
    reasoned(code, value, room_length).map(|(reading, _)| reading)
}

/// Why it shows that.
pub fn read_why(code: &[u16], value: &Value, room_length: usize) -> Result<Reason, u16> {
    reasoned(code, value, room_length).map(|(_, reason)| reason)
}

fn reasoned(code: &[u16], value: &Value, room_length: usize) -> Result<(Reading, Reason), u16> {
    let sections = sections(code).map_err(|refusal| refusal.answer)?;
    if !value.in_range() {
        return Err(answer::RANGE);
    }
    let (reading, reason) = match value {
        Value::Text(text) => {
            let reading = text_reading(&sections, text);
            let reason = Reason::of_text(reading.section);
            (reading, reason)
        }
        _ => value_reading(&sections, value)?,
    };
    if reading.text.len() > room_length {
        return Err(answer::TEXT_ROOM);
    }
    Ok((reading, reason))
}

/// Text goes to the fourth section, else to a text section, else it shows itself.
fn text_reading(sections: &[Section], text: &[u16]) -> Reading {
    let last = sections.len() - 1;
    if last != 3 && sections[last].kind != Kind::Text {
        return Reading {
            text: text.to_vec(),
            colour: 0,
            section: 4,
            exact: true,
        };
    }
    let mut shown = Vec::new();
    for token in &sections[last].body {
        match token {
            Token::At | Token::General => shown.extend(text),
            other => put_literal(&mut shown, other),
        }
    }
    Reading {
        text: shown,
        colour: sections[last].colour,
        section: last as u16,
        exact: true,
    }
}

fn value_reading(sections: &[Section], value: &Value) -> Result<(Reading, Reason), u16> {
    let index = choose(sections, value)?;
    let section = &sections[index];
    let figure = match (section.kind, value) {
        (Kind::Literal, _) => literal_figure(section),
        (Kind::Number, Value::Number { coefficient, scale }) => {
            number_figure(section, *coefficient, *scale)
        }
        (Kind::Scientific, Value::Number { coefficient, scale }) => {
            scientific_figure(section, *coefficient, *scale)
        }
        (Kind::Fraction, Value::Number { coefficient, scale }) => {
            fraction_figure(section, *coefficient, *scale)
        }
        (Kind::General | Kind::Text, Value::Number { coefficient, scale }) => {
            general_figure(section, *coefficient, *scale)?
        }
        (Kind::DateTime, Value::Instant { day, ms }) => date_figure(section, *day, *ms),
        _ => return Err(answer::SORT),
    };
    let minus = if !value.is_negative() {
        2
    } else if section.body.is_empty() {
        3
    } else if takes_negatives_by_fallback(sections, index) {
        4
    } else if figure.rounds_to_zero {
        5
    } else {
        0
    };
    let mut text = Vec::new();
    if minus == 0 {
        text.push(u16::from(b'-'));
    }
    text.extend(figure.text);
    let reading = Reading {
        text,
        colour: section.colour,
        section: index as u16,
        exact: figure.exact,
    };
    let reason = Reason {
        section: index as u16,
        choice: choice(sections, index),
        tried: [0, 1].map(|at| tried(sections, at, index)),
        minus,
        cut: figure.cut as u16,
    };
    Ok((reading, reason))
}

/// The number of what names the chosen section.
fn choice(sections: &[Section], index: usize) -> u16 {
    let has_own = sections[index].condition.is_some();
    match (counted(sections), index) {
        (0, _) => 7,
        _ if has_own => 0,
        (1, _) => 1,
        (2, 0) => 2,
        (2, _) => 3,
        (_, at) => 4 + at as u16,
    }
}

fn tried(sections: &[Section], at: usize, index: usize) -> u16 {
    match sections[..index].get(at) {
        None => 0,
        Some(section) if section.condition.is_some() => 1,
        Some(_) => 2,
    }
}

/// The first section that holds. With N = 0 a number goes to the one text section.
fn choose(sections: &[Section], value: &Value) -> Result<usize, u16> {
    let n = counted(sections);
    if n == 0 {
        return match value {
            Value::Instant { .. } => Err(answer::SORT),
            _ => Ok(0),
        };
    }
    (0..n)
        .find(|index| match &sections[*index].condition {
            Some(condition) => holds(condition, value),
            None => falls_back(n, *index, sign(value)),
        })
        .ok_or(answer::NO_SECTION)
}

fn sign(value: &Value) -> Ordering {
    let zero = Condition {
        operator: Operator::Equal,
        negative: false,
        whole: vec![b'0'],
        decimals: vec![],
    };
    compare(value, &zero)
}

fn falls_back(n: usize, index: usize, sign: Ordering) -> bool {
    match (n, index) {
        (2, 0) => sign != Ordering::Less,
        (3, 0) => sign == Ordering::Greater,
        (3, 1) => sign == Ordering::Less,
        _ => true,
    }
}

fn holds(condition: &Condition, value: &Value) -> bool {
    let order = compare(value, condition);
    match condition.operator {
        Operator::Equal => order == Ordering::Equal,
        Operator::Less => order == Ordering::Less,
        Operator::Greater => order == Ordering::Greater,
        Operator::AtMost => order != Ordering::Greater,
        Operator::AtLeast => order != Ordering::Less,
        Operator::Unequal => order != Ordering::Equal,
    }
}

/// Compares two fractions exactly by cross-multiplying; all terms stay below 10^32.
fn compare(value: &Value, condition: &Condition) -> Ordering {
    let (top, bottom) = match value {
        Value::Number { coefficient, scale } => (i128::from(*coefficient), 10i128.pow(*scale)),
        Value::Instant { day, ms } => (i128::from(*day) * 86_400_000 + i128::from(*ms), 86_400_000),
        Value::Text(_) => unreachable!("a text is compared with no condition"),
    };
    let digits = condition.whole.iter().chain(&condition.decimals);
    let magnitude = digits.fold(0i128, |sum, digit| sum * 10 + i128::from(digit - b'0'));
    let signed = if condition.negative {
        -magnitude
    } else {
        magnitude
    };
    let unit = 10i128.pow(condition.decimals.len() as u32);
    (top * unit).cmp(&(signed * bottom))
}

/// What a section shows without the added minus, whether exception (b) holds the minus back, whether
/// the text tells the value exactly, and how many decimals were cut.
struct Figure {
    text: Vec<u16>,
    rounds_to_zero: bool,
    exact: bool,
    cut: usize,
}

fn put(out: &mut Vec<u16>, text: &str) {
    out.extend(text.bytes().map(u16::from));
}

fn put_digits(out: &mut Vec<u16>, digits: &[u8]) {
    out.extend(digits.iter().map(|digit| u16::from(digit + b'0')));
}

/// Literals, blanks and fills; every other token is shown by its kind.
fn put_literal(out: &mut Vec<u16>, token: &Token) {
    match token {
        Token::Bare(byte) => out.push(u16::from(*byte)),
        Token::Escaped(unit) => out.push(*unit),
        Token::Quoted(units) => out.extend(units),
        Token::Blank(_) => out.push(u16::from(b' ')),
        Token::Fill(_) => {}
        other => unreachable!("{other:?} is no literal"),
    }
}

fn literal_figure(section: &Section) -> Figure {
    let mut text = Vec::new();
    for token in &section.body {
        put_literal(&mut text, token);
    }
    Figure {
        text,
        rounds_to_zero: false,
        exact: true,
        cut: 0,
    }
}

fn general_figure(section: &Section, coefficient: i64, scale: u32) -> Result<Figure, u16> {
    let number = general(coefficient, scale as i32).ok_or(answer::GENERAL)?;
    let mut figures = Vec::new();
    put_general(&mut figures, &number);
    let mut text = Vec::new();
    for token in &section.body {
        match token {
            Token::General | Token::At => text.extend(&figures),
            other => put_literal(&mut text, other),
        }
    }
    Ok(Figure {
        text,
        rounds_to_zero: number.is_zero(),
        exact: number.exact,
        cut: number.cut,
    })
}

fn put_general(out: &mut Vec<u16>, number: &Decimal) {
    if number.integer.is_empty() {
        put(out, "0");
    }
    put_digits(out, &number.integer);
    if !number.decimals.is_empty() {
        put(out, ".");
        put_digits(out, &number.decimals);
    }
}

fn number_figure(section: &Section, coefficient: i64, scale: u32) -> Figure {
    let shape = number_shape(&section.body).expect("a number section has a number's shape");
    let exponent = 3 * shape.dividing_commas as i32 - 2 * shape.percents as i32;
    let number = rounded(coefficient, scale as i32 + exponent, shape.decimal_places);
    let integer = integer_pieces(&section.body, &number.integer, &shape);
    let decimals = decimal_pieces(&section.body, &number.decimals);
    let mut pieces = integer.iter().chain(&decimals);
    let mut text = Vec::new();
    for token in &section.body {
        match token {
            Token::Comma => {}
            Token::Place(_) => put(&mut text, pieces.next().expect("a piece for each place")),
            Token::Point => {
                if shape.integer_places == 0 {
                    put_digits(&mut text, &number.integer);
                }
                put(&mut text, ".");
            }
            Token::Percent => put(&mut text, "%"),
            other => put_literal(&mut text, other),
        }
    }
    Figure {
        text,
        rounds_to_zero: number.is_zero(),
        exact: number.exact,
        cut: number.cut,
    }
}

/// The places before the E show the number over 10^exponent, those behind it the exponent like an
/// integer part.
fn scientific_figure(section: &Section, coefficient: i64, scale: u32) -> Figure {
    let shape = scientific_shape(&section.body).expect("a scientific section has its shape");
    let (mantissa, behind) = section.body.split_at(shape.mark);
    let NumberShape {
        integer_places,
        decimal_places,
        ..
    } = shape.mantissa;
    let scale = scale as i32;
    let exponent = exponent(coefficient, scale, integer_places, decimal_places);
    let number = rounded(coefficient, scale + exponent, decimal_places);
    let size = rounded(i64::from(exponent), 0, 0);
    let mut pieces = integer_pieces(mantissa, &number.integer, &shape.mantissa);
    pieces.extend(decimal_pieces(mantissa, &number.decimals));
    pieces.extend(integer_pieces(
        behind,
        &size.integer,
        &NumberShape::default(),
    ));
    let mut pieces = pieces.iter();
    let mut text = Vec::new();
    for token in &section.body {
        match token {
            Token::Place(_) => put(&mut text, pieces.next().expect("a piece for each place")),
            Token::Point => put(&mut text, "."),
            Token::Exponent { .. } if exponent < 0 => put(&mut text, "E-"),
            Token::Exponent { plus: true } => put(&mut text, "E+"),
            Token::Exponent { plus: false } => put(&mut text, "E"),
            other => put_literal(&mut text, other),
        }
    }
    Figure {
        text,
        rounds_to_zero: number.is_zero(),
        exact: number.exact,
        cut: number.cut,
    }
}

/// The places of the integer part, the numerator and the denominator have a piece each. Beside an
/// integer part a fraction of zero is blank.
fn fraction_figure(section: &Section, coefficient: i64, scale: u32) -> Figure {
    let body = &section.body;
    let shape = fraction_shape(body).expect("a fraction section has its shape");
    let with_integer = shape.integer_places > 0;
    let number = mixed(coefficient, scale, with_integer, shape.denominator);
    let blank = with_integer && number.numerator.is_empty();
    let start = shape.solidus - shape.numerator_places;
    let plain = NumberShape::default();
    let mut pieces = integer_pieces(&body[..start], &number.integer, &plain);
    let numerator = &body[start..shape.solidus];
    pieces.extend(integer_pieces(numerator, &number.numerator, &plain));
    pieces.extend(denominator_pieces(
        &body[shape.solidus..],
        &number.denominator,
    ));
    let mut pieces = pieces.iter();
    let mut text = Vec::new();
    for (at, token) in body.iter().enumerate() {
        match token {
            Token::Place(_) => {
                let piece = pieces.next().expect("a piece for each place");
                put(&mut text, if blank && at >= start { " " } else { piece });
            }
            Token::DigitRun(digits) if blank => put(&mut text, &" ".repeat(digits.len())),
            Token::DigitRun(digits) => text.extend(digits.iter().map(|digit| u16::from(*digit))),
            Token::Bare(_) if blank && at == shape.solidus => put(&mut text, " "),
            other => put_literal(&mut text, other),
        }
    }
    Figure {
        text,
        rounds_to_zero: number.is_zero(),
        exact: number.exact,
        cut: 0,
    }
}

/// The first place takes all: zeros for the spare `0`, the digits, spaces for the spare `?`.
fn denominator_pieces(behind: &[Token], digits: &[u8]) -> Vec<String> {
    let places = place_tokens(behind).0;
    let mut pieces = vec![String::new(); places.len()];
    if let Some(first) = pieces.first_mut() {
        let spare = &places[..places.len() - digits.len()];
        first.extend(spare.iter().filter(|place| **place == b'0').map(|_| '0'));
        first.extend(digits.iter().map(|digit| char::from(digit + b'0')));
        first.extend(spare.iter().filter(|place| **place == b'?').map(|_| ' '));
    }
    pieces
}

fn place_tokens(body: &[Token]) -> (Vec<u8>, Vec<u8>) {
    let point = body.iter().position(|token| *token == Token::Point);
    let places = |part: &[Token]| {
        part.iter()
            .filter_map(|token| match token {
                Token::Place(place) => Some(*place),
                _ => None,
            })
            .collect()
    };
    match point {
        Some(at) => (places(&body[..at]), places(&body[at..])),
        None => (places(body), vec![]),
    }
}

fn insignificant_zero(place: u8) -> &'static str {
    match place {
        b'0' => "0",
        b'?' => " ",
        _ => "",
    }
}

/// The text of each integer place. Digits are handed out from the right; the first place takes what
/// is left over.
fn integer_pieces(body: &[Token], digits: &[u8], shape: &NumberShape) -> Vec<String> {
    let places = place_tokens(body).0;
    let mut pieces = Vec::new();
    for (index, place) in places.iter().enumerate() {
        let power = places.len() - 1 - index;
        let mut piece = String::new();
        if digits.len() > power {
            let own = digits.len() - 1 - power;
            let first = if index == 0 { 0 } else { own };
            for at in first..=own {
                piece.push(char::from(digits[at] + b'0'));
                piece.push_str(separator(shape.grouping, digits.len() - 1 - at, ","));
            }
        } else {
            let zero = insignificant_zero(*place);
            let mark = match zero {
                "0" => ",",
                other => other,
            };
            piece.push_str(zero);
            piece.push_str(separator(shape.grouping, power, mark));
        }
        pieces.push(piece);
    }
    pieces
}

/// The mark behind the figure of 10^power, where grouping asks for one.
fn separator(grouping: bool, power: usize, mark: &str) -> &str {
    if grouping && power > 0 && power.is_multiple_of(3) {
        mark
    } else {
        ""
    }
}

/// The text of each decimal place.
fn decimal_pieces(body: &[Token], digits: &[u8]) -> Vec<String> {
    let significant = digits.iter().rposition(|d| *d != 0).map_or(0, |at| at + 1);
    let places = place_tokens(body).1;
    let piece = |(index, place): (usize, &u8)| {
        if index < significant {
            char::from(digits[index] + b'0').to_string()
        } else {
            insignificant_zero(*place).to_string()
        }
    };
    places.iter().enumerate().map(piece).collect()
}

fn date_figure(section: &Section, day: u32, ms: u32) -> Figure {
    let body = &section.body;
    let twelve = body.iter().any(|t| matches!(t, Token::HalfDay { .. }));
    let mut text = Vec::new();
    for (at, token) in body.iter().enumerate() {
        match token {
            Token::Run { letter, length } => {
                let shown = match letter {
                    b'y' => days::year(day, *length),
                    b'm' if means_minutes(body, at) => days::minute(ms, *length),
                    b'm' => days::month(day, *length),
                    b'd' => days::day(day, *length),
                    b'h' => days::hour(ms, *length, twelve),
                    _ => days::second(ms, *length),
                };
                put(&mut text, &shown);
            }
            Token::Elapsed { letter, length } => {
                put(&mut text, &days::elapsed(day, ms, *letter, *length));
            }
            Token::HalfDay { long } => put(&mut text, days::half_day(ms, *long)),
            Token::Comma => put(&mut text, ","),
            Token::Point => match part_of_second(body, at) {
                0 => put(&mut text, "."),
                digits => put(&mut text, &days::part_of_second(ms, digits)),
            },
            // A zero here belongs to the part of a second that its point has shown.
            Token::Place(_) => {}
            other => put_literal(&mut text, other),
        }
    }
    Figure {
        text,
        rounds_to_zero: false,
        exact: cuts_only_zeros(body, ms),
        cut: 0,
    }
}

/// Of the clock's digits hhmmssfff those behind the finest that the section shows are zeros.
fn cuts_only_zeros(body: &[Token], ms: u32) -> bool {
    let (minutes, seconds) = (ms / 60_000, ms / 1000);
    let clock = format!(
        "{:02}{:02}{:02}{:03}",
        minutes / 60,
        minutes % 60,
        seconds % 60,
        ms % 1000
    );
    let reach = (0..body.len()).map(|at| clock_digits(body, at)).max();
    clock
        .bytes()
        .skip(reach.unwrap_or(0))
        .all(|digit| digit == b'0')
}

/// How far into the clock's digits hhmmssfff a token reaches; dates and half-day marks do not.
fn clock_digits(body: &[Token], at: usize) -> usize {
    match body[at] {
        Token::Run { letter: b'm', .. } if !means_minutes(body, at) => 0,
        Token::Run { letter, .. } | Token::Elapsed { letter, .. } => match letter {
            b'h' => 2,
            b'm' => 4,
            b's' => 6,
            _ => 0,
        },
        Token::Point => match part_of_second(body, at) {
            0 => 0,
            digits => 6 + digits,
        },
        _ => 0,
    }
}
