//! Document 01, "Tokens", with 02's `E+`, `E-` and digit runs: a code's units read left to right, the
//! longest token first.

/// Literals that need no quotes.
const BARE_LITERALS: &[u8] = b"$-+/():!^&'~{}<>= ";

/// Colour names in the order of their numbers, from 1.
const COLOURS: [&str; 8] = [
    "Black", "White", "Red", "Green", "Blue", "Yellow", "Magenta", "Cyan",
];

#[derive(Clone, Copy, Debug, PartialEq, Eq)]
pub enum Operator {
    Equal = 1,
    Less = 2,
    Greater = 3,
    AtMost = 4,
    AtLeast = 5,
    Unequal = 6,
}

/// Longer spellings stand first, so that the first that fits is the longest.
const OPERATORS: [(&str, Operator); 6] = [
    ("<=", Operator::AtMost),
    (">=", Operator::AtLeast),
    ("<>", Operator::Unequal),
    ("=", Operator::Equal),
    ("<", Operator::Less),
    (">", Operator::Greater),
];

/// A condition with its digits as written, since the limits count every one of them.
#[derive(Clone, Debug, PartialEq, Eq)]
pub struct Condition {
    pub operator: Operator,
    pub negative: bool,
    pub whole: Vec<u8>,
    pub decimals: Vec<u8>,
}

#[derive(Clone, Debug, PartialEq, Eq)]
pub enum Token {
    Bare(u8),
    Escaped(u16),
    Quoted(Vec<u16>),
    Blank(u16),
    Fill(u16),
    Place(u8),
    /// The digits of a fixed denominator.
    DigitRun(Vec<u8>),
    Point,
    Comma,
    Percent,
    At,
    Semicolon,
    General,
    /// `E+` when it shows a plus, else `E-`.
    Exponent {
        plus: bool,
    },
    /// `AM/PM` when long, else `A/P`.
    HalfDay {
        long: bool,
    },
    Run {
        letter: u8,
        length: usize,
    },
    Elapsed {
        letter: u8,
        length: usize,
    },
    Colour(u16),
    Condition(Condition),
}

/// A token with the place of its first unit.
#[derive(Clone, Debug)]
pub struct Placed {
    pub token: Token,
    pub at: usize,
}

/// All tokens of a code, or the first unit that starts no whole token.
pub fn tokens(code: &[u16]) -> Result<Vec<Placed>, usize> {
    let mut found = Vec::new();
    let mut at = 0;
    while at < code.len() {
        let rest = &code[at..];
        let (token, length) = digit_run(&found, rest)
            .or_else(|| first_token(rest))
            .ok_or(at)?;
        found.push(Placed { token, at });
        at += length;
    }
    Ok(found)
}

/// Digits that begin with 1 to 9, directly behind a solidus that directly follows a place.
fn digit_run(before: &[Placed], rest: &[u16]) -> Option<(Token, usize)> {
    let [.., place, solidus] = before else {
        return None;
    };
    let may = matches!(place.token, Token::Place(_)) && solidus.token == Token::Bare(b'/');
    let bytes = rest.iter().map(|unit| byte(*unit));
    let digits: Vec<u8> = bytes.take_while(u8::is_ascii_digit).collect();
    let length = digits.len();
    let starts = digits.first().is_some_and(|digit| *digit != b'0');
    (may && starts).then_some((Token::DigitRun(digits), length))
}

/// The byte of an ASCII unit; any other unit becomes a byte that starts no token.
fn byte(unit: u16) -> u8 {
    u8::try_from(unit).unwrap_or(u8::MAX)
}

fn first_token(rest: &[u16]) -> Option<(Token, usize)> {
    let single = |token| Some((token, 1));
    let marked = |make: fn(u16) -> Token| rest.get(1).map(|unit| (make(*unit), 2));
    match byte(rest[0]) {
        b'"' => quoted(rest),
        b'\\' => marked(Token::Escaped),
        b'_' => marked(Token::Blank),
        b'*' => marked(Token::Fill),
        place @ (b'0' | b'#' | b'?') => single(Token::Place(place)),
        b'.' => single(Token::Point),
        b',' => single(Token::Comma),
        b'%' => single(Token::Percent),
        b'@' => single(Token::At),
        b';' => single(Token::Semicolon),
        b'G' => starts_with(rest, "General").then_some((Token::General, 7)),
        b'E' => exponent(rest),
        b'A' => half_day(rest),
        b'y' | b'm' | b'd' | b'h' | b's' => run(rest),
        b'[' => bracket(rest),
        bare if BARE_LITERALS.contains(&bare) => single(Token::Bare(bare)),
        _ => None,
    }
}

fn starts_with(units: &[u16], text: &str) -> bool {
    units.len() >= text.len()
        && text
            .bytes()
            .zip(units)
            .all(|(b, unit)| u16::from(b) == *unit)
}

/// One or more units between quotes; two quotes side by side hold nothing and are broken.
fn quoted(rest: &[u16]) -> Option<(Token, usize)> {
    let length = rest[1..].iter().position(|unit| byte(*unit) == b'"')?;
    if length == 0 {
        return None;
    }
    Some((Token::Quoted(rest[1..=length].to_vec()), length + 2))
}

fn exponent(rest: &[u16]) -> Option<(Token, usize)> {
    let plus = match byte(*rest.get(1)?) {
        b'+' => true,
        b'-' => false,
        _ => return None,
    };
    Some((Token::Exponent { plus }, 2))
}

fn half_day(rest: &[u16]) -> Option<(Token, usize)> {
    if starts_with(rest, "AM/PM") {
        Some((Token::HalfDay { long: true }, 5))
    } else if starts_with(rest, "A/P") {
        Some((Token::HalfDay { long: false }, 3))
    } else {
        None
    }
}

/// A run is taken whole before its length is judged.
fn run(rest: &[u16]) -> Option<(Token, usize)> {
    let length = rest.iter().take_while(|unit| **unit == rest[0]).count();
    let letter = byte(rest[0]);
    let allowed = match letter {
        b'y' => length == 2 || length == 4,
        b'm' => length <= 5,
        b'd' => length <= 4,
        _ => length <= 2,
    };
    allowed.then_some((Token::Run { letter, length }, length))
}

fn bracket(rest: &[u16]) -> Option<(Token, usize)> {
    let close = rest.iter().position(|unit| byte(*unit) == b']')?;
    let inside: Vec<u8> = rest[1..close].iter().map(|unit| byte(*unit)).collect();
    let token = colour(&inside)
        .or_else(|| elapsed(&inside))
        .or_else(|| condition(&inside))?;
    Some((token, close + 1))
}

fn colour(inside: &[u8]) -> Option<Token> {
    if let Some(index) = COLOURS.iter().position(|name| name.as_bytes() == inside) {
        return Some(Token::Colour(index as u16 + 1));
    }
    let digits = inside.strip_prefix(b"Color")?;
    if digits.len() > 2 || !all_digits(digits) || digits[0] == b'0' {
        return None;
    }
    let number = digits
        .iter()
        .fold(0, |sum, digit| sum * 10 + u16::from(digit - b'0'));
    (number <= 56).then_some(Token::Colour(number))
}

fn elapsed(inside: &[u8]) -> Option<Token> {
    let letter = *inside.first()?;
    let whole = matches!(letter, b'h' | b'm' | b's') && inside.iter().all(|b| *b == letter);
    whole.then_some(Token::Elapsed {
        letter,
        length: inside.len(),
    })
}

fn condition(inside: &[u8]) -> Option<Token> {
    let (spelling, operator) = OPERATORS
        .iter()
        .find(|(spelling, _)| inside.starts_with(spelling.as_bytes()))?;
    let signed = &inside[spelling.len()..];
    let number = signed.strip_prefix(b"-").unwrap_or(signed);
    let (whole, decimals) = match number.iter().position(|b| *b == b'.') {
        Some(point) => (&number[..point], Some(&number[point + 1..])),
        None => (number, None),
    };
    if !all_digits(whole) || !decimals.is_none_or(all_digits) {
        return None;
    }
    Some(Token::Condition(Condition {
        operator: *operator,
        negative: number.len() < signed.len(),
        whole: whole.to_vec(),
        decimals: decimals.unwrap_or_default().to_vec(),
    }))
}

/// At least one digit, and nothing else.
fn all_digits(bytes: &[u8]) -> bool {
    !bytes.is_empty() && bytes.iter().all(u8::is_ascii_digit)
}
