//! 02's P4: which solidus makes a fraction, and what a fraction section's tokens come to.

use super::code::is_literal;
use super::token::Token;

/// What stands behind the solidus.
#[derive(Clone, Copy, Debug)]
pub enum Denominator {
    Places(usize),
    /// A fixed number; 1,000 stands for every greater one too.
    Fixed(u16),
}

/// What a fraction section's tokens come to.
#[derive(Clone, Copy, Debug)]
pub struct FractionShape {
    pub integer_places: usize,
    pub numerator_places: usize,
    /// Where the solidus stands, directly behind the numerator.
    pub solidus: usize,
    pub denominator: Denominator,
}

/// A bare solidus whose very neighbours are a place and a place or a digit run.
pub fn is_solidus(body: &[Token], at: usize) -> bool {
    body[at] == Token::Bare(b'/')
        && at > 0
        && is_place(&body[at - 1])
        && matches!(body.get(at + 1), Some(Token::Place(_) | Token::DigitRun(_)))
}

pub fn has_solidus(body: &[Token]) -> bool {
    (0..body.len()).any(|at| is_solidus(body, at))
}

/// The shape of a fraction body, or none if something in it may not stand there.
pub fn fraction_shape(body: &[Token]) -> Option<FractionShape> {
    let solidus = (0..body.len()).find(|at| is_solidus(body, *at))?;
    let numerator_places = run_of_places(body[..solidus].iter().rev());
    let front = &body[..solidus - numerator_places];
    let behind = &body[solidus + 1..];
    let (denominator, length) = match &behind[0] {
        Token::DigitRun(digits) => (Denominator::Fixed(number(digits)), 1),
        _ => {
            let places = run_of_places(behind.iter());
            (Denominator::Places(places), places)
        }
    };
    let integer_places = integer_places(front)?;
    behind[length..]
        .iter()
        .all(is_literal)
        .then_some(FractionShape {
            integer_places,
            numerator_places,
            solidus,
            denominator,
        })
}

fn is_place(token: &Token) -> bool {
    matches!(token, Token::Place(_))
}

fn run_of_places<'a>(tokens: impl Iterator<Item = &'a Token>) -> usize {
    tokens.take_while(|token| is_place(token)).count()
}

fn number(digits: &[u8]) -> u16 {
    let add = |sum: u16, digit: &u8| (sum * 10 + u16::from(digit - b'0')).min(1000);
    digits.iter().fold(0, add)
}

/// How many places stand before the numerator, perhaps none; behind the last of them a literal has to
/// follow, and blanks and fills are none.
fn integer_places(front: &[Token]) -> Option<usize> {
    let parts =
        |token: &Token| matches!(token, Token::Bare(_) | Token::Escaped(_) | Token::Quoted(_));
    let last = front.iter().rposition(is_place);
    let parted = last.is_none_or(|last| front[last..].iter().any(parts));
    let sound = front
        .iter()
        .all(|token| is_place(token) || is_literal(token));
    (parted && sound).then(|| front.iter().filter(|token| is_place(token)).count())
}

/// 02's limits for a fraction.
pub fn passes_a_limit(shape: &FractionShape) -> bool {
    let below = match shape.denominator {
        Denominator::Places(places) => places > 3,
        Denominator::Fixed(number) => number > 999,
    };
    shape.integer_places > 20 || shape.numerator_places > 20 || below
}
