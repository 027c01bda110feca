//! Document 01, the tests 1 to 6 of preparing: a code's sections, their kinds, standing and limits.
//!
//! Each test is made over the whole code before the next one is.

use super::answer;
use super::fraction::{self, fraction_shape, has_solidus, is_solidus};
use super::token::{tokens, Condition, Placed, Token};

const LONGEST_CODE: usize = 254;
const MOST_SECTIONS: usize = 4;

#[derive(Clone, Copy, Debug, PartialEq, Eq)]
pub enum Kind {
    Literal = 0,
    General = 1,
    Number = 2,
    Text = 3,
    DateTime = 4,
    Scientific = 5,
    Fraction = 6,
}

/// Why a code is refused, and where.
#[derive(Clone, Copy, Debug, PartialEq, Eq)]
pub struct Refusal {
    pub answer: u16,
    pub place: u32,
}

fn refuse<T>(answer: u16, place: usize) -> Result<T, Refusal> {
    let place = place as u32;
    Err(Refusal { answer, place })
}

/// One section of an accepted code.
#[derive(Clone, Debug)]
pub struct Section {
    pub start: usize,
    pub length: usize,
    pub colour: u16,
    pub condition: Option<Condition>,
    pub kind: Kind,
    pub body: Vec<Token>,
}

/// A section cut out of the code, before its kind is known.
struct Part {
    start: usize,
    length: usize,
    tokens: Vec<Token>,
}

/// The sections of an accepted code, or the first refusal of 1 to 6.
pub fn sections(code: &[u16]) -> Result<Vec<Section>, Refusal> {
    if code.is_empty() || code.len() > LONGEST_CODE {
        return refuse(answer::CODE_LENGTH, 0);
    }
    let tokens = match tokens(code) {
        Ok(tokens) => tokens,
        Err(place) => return refuse(answer::TOKEN, place),
    };
    let mut sections = Vec::new();
    for (index, part) in split(&tokens, code.len())?.into_iter().enumerate() {
        match classify(part) {
            Some(section) => sections.push(section),
            None => return refuse(answer::KIND, index),
        }
    }
    if let Some(index) = (0..sections.len()).find(|index| !may_stand(&sections, *index)) {
        return refuse(answer::STANDING, index);
    }
    if let Some(index) = sections.iter().position(passes_a_limit) {
        return refuse(answer::LIMIT, index);
    }
    Ok(sections)
}

/// Section `n` as start and length; the empty part at the start for a refused code or none there.
pub fn section(code: &[u16], n: u32) -> (u32, u32) {
    let found = sections(code).ok();
    match found.as_ref().and_then(|all| all.get(n as usize)) {
        Some(section) => (section.start as u32, section.length as u32),
        None => (0, 0),
    }
}

fn split(tokens: &[Placed], code_length: usize) -> Result<Vec<Part>, Refusal> {
    let separators: Vec<usize> = tokens
        .iter()
        .filter(|placed| placed.token == Token::Semicolon)
        .map(|placed| placed.at)
        .collect();
    if separators.len() >= MOST_SECTIONS {
        return refuse(answer::SECTIONS, separators[MOST_SECTIONS - 1]);
    }
    let mut parts = Vec::new();
    let mut start = 0;
    for end in separators.into_iter().chain([code_length]) {
        let inside = tokens.iter().filter(|t| start <= t.at && t.at < end);
        parts.push(Part {
            start,
            length: end - start,
            tokens: inside.map(|placed| placed.token.clone()).collect(),
        });
        start = end + 1;
    }
    Ok(parts)
}

/// Takes a colour, then a condition off the front; a later one is left in the body and fits no kind.
fn classify(part: Part) -> Option<Section> {
    let mut body = part.tokens;
    let mut colour = 0;
    let mut condition = None;
    if let Some(Token::Colour(number)) = body.first() {
        colour = *number;
        body.remove(0);
    }
    if let Some(Token::Condition(found)) = body.first() {
        condition = Some(found.clone());
        body.remove(0);
    }
    Some(Section {
        start: part.start,
        length: part.length,
        colour,
        condition,
        kind: kind_of(&body)?,
        body,
    })
}

/// The kind that the body's telling token names, if the body holds only what that kind may hold.
fn kind_of(body: &[Token]) -> Option<Kind> {
    let has = |test: fn(&Token) -> bool| body.iter().any(test);
    let (kind, fits) = if has(|token| *token == Token::At) {
        (Kind::Text, only_beside(body, &Token::At))
    } else if has(|token| *token == Token::General) {
        (Kind::General, is_general(body))
    } else if has(is_date_token) {
        (Kind::DateTime, is_date_time(body))
    } else if has(is_exponent) {
        (Kind::Scientific, scientific_shape(body).is_some())
    } else if has_solidus(body) {
        (Kind::Fraction, fraction_shape(body).is_some())
    } else if has(|token| matches!(token, Token::Place(_))) {
        (Kind::Number, number_shape(body).is_some())
    } else {
        (Kind::Literal, body.iter().all(is_literal))
    };
    fits.then_some(kind)
}

/// Literals, blanks and fills, which may stand anywhere in a body.
pub fn is_literal(token: &Token) -> bool {
    matches!(
        token,
        Token::Bare(_) | Token::Escaped(_) | Token::Quoted(_) | Token::Blank(_) | Token::Fill(_)
    )
}

/// Half-day marks are not among them.
fn is_date_token(token: &Token) -> bool {
    matches!(token, Token::Run { .. } | Token::Elapsed { .. })
}

fn is_exponent(token: &Token) -> bool {
    matches!(token, Token::Exponent { .. })
}

fn only_beside(body: &[Token], wanted: &Token) -> bool {
    body.iter()
        .all(|token| token == wanted || is_literal(token))
}

fn is_general(body: &[Token]) -> bool {
    let times = body.iter().filter(|token| **token == Token::General);
    times.count() == 1 && only_beside(body, &Token::General)
}

/// What a number section's tokens come to.
#[derive(Clone, Copy, Debug, Default)]
pub struct NumberShape {
    pub integer_places: usize,
    pub decimal_places: usize,
    pub percents: usize,
    pub dividing_commas: usize,
    pub grouping: bool,
}

/// The shape of a number body, or none if something in it may not stand there.
pub fn number_shape(body: &[Token]) -> Option<NumberShape> {
    let points: Vec<usize> = positions(body, |token| *token == Token::Point);
    let places: Vec<usize> = positions(body, |token| matches!(token, Token::Place(_)));
    if points.len() > 1 {
        return None;
    }
    let point = points.first().copied().unwrap_or(body.len());
    let integer: Vec<usize> = places.iter().copied().filter(|at| *at < point).collect();
    let mut shape = NumberShape {
        integer_places: integer.len(),
        decimal_places: places.len() - integer.len(),
        ..NumberShape::default()
    };
    for (at, token) in body.iter().enumerate() {
        match token {
            Token::Place(_) | Token::Point => {}
            Token::Percent => shape.percents += 1,
            Token::Comma => match comma(at, point, &integer, &places)? {
                Comma::Grouping => shape.grouping = true,
                Comma::Dividing => shape.dividing_commas += 1,
            },
            Token::Bare(_) if is_solidus(body, at) => return None,
            literal if is_literal(literal) => {}
            _ => return None,
        }
    }
    Some(shape)
}

/// What a scientific section's tokens come to.
#[derive(Clone, Copy, Debug)]
pub struct ScientificShape {
    pub mantissa: NumberShape,
    /// Where the E stands.
    pub mark: usize,
    pub exponent_places: usize,
}

/// The shape of a scientific body, or none if something in it may not stand there. The mantissa is a
/// number body without commas and percents that has an integer place.
pub fn scientific_shape(body: &[Token]) -> Option<ScientificShape> {
    let [mark] = positions(body, is_exponent)[..] else {
        return None;
    };
    let foreign = |token: &Token| matches!(token, Token::Comma | Token::Percent);
    let mantissa = number_shape(&body[..mark])?;
    let exponent_places = exponent_places(&body[mark + 1..])?;
    let sound = mantissa.integer_places >= 1 && exponent_places >= 1 && !body.iter().any(foreign);
    sound.then_some(ScientificShape {
        mantissa,
        mark,
        exponent_places,
    })
}

/// How many places stand behind the E; none if it is followed by anything but `0`, `#` and literals.
fn exponent_places(behind: &[Token]) -> Option<usize> {
    let may = |at: usize| match &behind[at] {
        Token::Place(place) => *place != b'?',
        Token::Bare(_) => !is_solidus(behind, at),
        token => is_literal(token),
    };
    let places = positions(behind, |token| matches!(token, Token::Place(_)));
    (0..behind.len()).all(may).then_some(places.len())
}

fn positions(body: &[Token], test: impl Fn(&Token) -> bool) -> Vec<usize> {
    (0..body.len()).filter(|at| test(&body[*at])).collect()
}

enum Comma {
    Grouping,
    Dividing,
}

/// What the comma at `at` asks for, given where the point, the integer places and all places are.
fn comma(at: usize, point: usize, integer: &[usize], places: &[usize]) -> Option<Comma> {
    let first_integer_before = integer.first().is_some_and(|first| *first < at);
    let last_integer_after = integer.last().is_some_and(|last| at < *last);
    let last_place_before = places.last().is_some_and(|last| *last < at);
    if first_integer_before && last_integer_after {
        Some(Comma::Grouping)
    } else if (first_integer_before && at < point) || last_place_before {
        Some(Comma::Dividing)
    } else {
        None
    }
}

fn is_date_time(body: &[Token]) -> bool {
    let mut at = 0;
    while at < body.len() {
        at += match &body[at] {
            Token::Point => 1 + part_of_second(body, at),
            Token::Comma | Token::HalfDay { .. } => 1,
            token if is_literal(token) || is_date_token(token) => 1,
            _ => return false,
        };
    }
    elapsed_stands_alone(body)
}

/// How many zeros, one to three, the point at `at` takes as part of a second; 0 for a literal point.
pub fn part_of_second(body: &[Token], at: usize) -> usize {
    let after_seconds = at > 0
        && matches!(
            body[at - 1],
            Token::Run { letter: b's', .. } | Token::Elapsed { letter: b's', .. }
        );
    if !after_seconds {
        return 0;
    }
    let zeros = body[at + 1..].iter();
    zeros
        .take(3)
        .take_while(|token| **token == Token::Place(b'0'))
        .count()
}

/// At most one elapsed token, and no plain token of the same unit of time.
fn elapsed_stands_alone(body: &[Token]) -> bool {
    let letters: Vec<u8> = body.iter().filter_map(elapsed_letter).collect();
    match letters.as_slice() {
        [] => true,
        [letter] => !(0..body.len()).any(|at| plain_unit(body, at) == Some(*letter)),
        _ => false,
    }
}

fn elapsed_letter(token: &Token) -> Option<u8> {
    match token {
        Token::Elapsed { letter, .. } => Some(*letter),
        _ => None,
    }
}

/// The unit of time that a plain run shows: h, m for minutes, or s.
fn plain_unit(body: &[Token], at: usize) -> Option<u8> {
    match body[at] {
        Token::Run { letter: b'm', .. } => means_minutes(body, at).then_some(b'm'),
        Token::Run { letter, .. } => Some(letter),
        _ => None,
    }
}

/// The rule for m and mm: minutes when the nearest earlier run or elapsed token is hours, or the
/// nearest later one is seconds.
pub fn means_minutes(body: &[Token], at: usize) -> bool {
    let short = matches!(body[at], Token::Run { letter: b'm', length } if length <= 2);
    let earlier = body[..at].iter().rev().find(|token| is_date_token(token));
    let later = body[at + 1..].iter().find(|token| is_date_token(token));
    short && (is_unit(earlier, b'h') || is_unit(later, b's'))
}

/// A run or an elapsed token of this letter.
fn is_unit(token: Option<&Token>, wanted: u8) -> bool {
    match token {
        Some(Token::Run { letter, .. } | Token::Elapsed { letter, .. }) => *letter == wanted,
        _ => false,
    }
}

/// Document 01, "Where".
fn may_stand(sections: &[Section], index: usize) -> bool {
    let section = &sections[index];
    let count = sections.len();
    let conditioned = section.condition.is_some();
    let text_is_last = section.kind != Kind::Text || index + 1 == count;
    let condition_may = match count {
        1 => section.kind == Kind::General,
        _ => index < 2 && section.kind != Kind::Text,
    };
    let fourth_may = index != 3
        || (matches!(section.kind, Kind::Text | Kind::General | Kind::Literal)
            && section.colour == 0);
    text_is_last && (!conditioned || condition_may) && fourth_may
}

/// Document 01, "Limits", and 02's for the exponent and for fractions.
fn passes_a_limit(section: &Section) -> bool {
    let condition = section
        .condition
        .as_ref()
        .is_some_and(|condition| condition.whole.len() > 9 || condition.decimals.len() > 6);
    let elapsed = section
        .body
        .iter()
        .any(|token| matches!(token, Token::Elapsed { length, .. } if *length > 9));
    condition || elapsed || places_pass_a_limit(section)
}

fn places_pass_a_limit(section: &Section) -> bool {
    let pass = |shape: NumberShape| {
        shape.integer_places > 20
            || shape.decimal_places > 15
            || shape.percents > 5
            || shape.dividing_commas > 5
    };
    match section.kind {
        Kind::Number => number_shape(&section.body).is_some_and(pass),
        Kind::Scientific => scientific_shape(&section.body)
            .is_some_and(|shape| pass(shape.mantissa) || shape.exponent_places > 3),
        Kind::Fraction => {
            fraction_shape(&section.body).is_some_and(|shape| fraction::passes_a_limit(&shape))
        }
        _ => false,
    }
}

/// N: the sections that are neither text nor fourth.
pub fn counted(sections: &[Section]) -> usize {
    let first_three = &sections[..sections.len().min(3)];
    first_three.iter().filter(|s| s.kind != Kind::Text).count()
}

/// Exception (a): the second section, taken by a fallback that names numbers below 0.
pub fn takes_negatives_by_fallback(sections: &[Section], index: usize) -> bool {
    let own = |at: usize| sections[at].condition.is_some();
    index == 1
        && !own(1)
        && match counted(sections) {
            3 => true,
            2 => !own(0),
            _ => false,
        }
}
