//! Rounding on written decimal digits. The reading off a code uses it; the reading of a table has its
//! own in `figures`, so that the two check each other.

use super::fraction::Denominator;

/// A rounded magnitude: integer digits without leading zeros, and as many decimals as asked for.
pub struct Decimal {
    pub integer: Vec<u8>,
    pub decimals: Vec<u8>,
    /// Nothing but zeros was cut.
    pub exact: bool,
    /// How many decimals were cut, but for zeros at the end.
    pub cut: usize,
}

impl Decimal {
    pub fn is_zero(&self) -> bool {
        self.integer.is_empty() && self.decimals.iter().all(|digit| *digit == 0)
    }
}

/// |coefficient| / 10^scale, where a scale below 0 multiplies, rounded once, halves away from zero.
pub fn rounded(coefficient: i64, scale: i32, decimals: usize) -> Decimal {
    let (mut digits, fraction) = written(coefficient, scale);
    let whole = digits.len();
    let digit_of = |at: usize| fraction.get(at).copied().unwrap_or(0);
    digits.extend((0..decimals).map(digit_of));
    let carried = digit_of(decimals) >= 5 && add_one(&mut digits);
    let point = whole + usize::from(carried);
    Decimal {
        integer: without_leading_zeros(&digits[..point]),
        decimals: digits[point..].to_vec(),
        exact: fraction.iter().skip(decimals).all(|digit| *digit == 0),
        cut: fraction
            .iter()
            .rposition(|digit| *digit != 0)
            .map_or(0, |last| (last + 1).saturating_sub(decimals)),
    }
}

/// Integer digits (at least one) and decimal digits of the exact magnitude.
fn written(coefficient: i64, scale: i32) -> (Vec<u8>, Vec<u8>) {
    let mut digits = spelled(coefficient.unsigned_abs());
    digits.extend(std::iter::repeat_n(0, (-scale).max(0) as usize));
    let decimals = scale.max(0) as usize;
    while digits.len() <= decimals {
        digits.insert(0, 0);
    }
    let fraction = digits.split_off(digits.len() - decimals);
    (digits, fraction)
}

/// The digits of a whole number, one at least.
fn spelled(number: u64) -> Vec<u8> {
    let text = number.to_string();
    text.bytes().map(|byte| byte - b'0').collect()
}

/// Adds one in the last place; true if a digit was added in front.
fn add_one(digits: &mut Vec<u8>) -> bool {
    for digit in digits.iter_mut().rev() {
        if *digit < 9 {
            *digit += 1;
            return false;
        }
        *digit = 0;
    }
    digits.insert(0, 1);
    true
}

fn without_leading_zeros(digits: &[u8]) -> Vec<u8> {
    digits.iter().copied().skip_while(|d| *d == 0).collect()
}

/// The exponent of a scientific section with `places` integer places: every multiple of `places` is
/// tried upward, and the first is taken that leaves 1 to `places` integer digits after rounding.
pub fn exponent(coefficient: i64, scale: i32, places: usize, decimals: usize) -> i32 {
    if coefficient == 0 {
        return 0;
    }
    let step = places as i32;
    let leaves = |exponent: &i32| {
        let digits = rounded(coefficient, scale + exponent, decimals)
            .integer
            .len();
        (1..=places).contains(&digits)
    };
    // A number of at least 10^-15, times 10^36 or more, has more than 20 integer digits.
    let first = -(35 / step + 1);
    let mut multiples = (first..).map(|index| index * step);
    multiples.find(leaves).expect("a multiple leaves them")
}

/// A magnitude as digits of an integer part and of a fraction, each without leading zeros.
pub struct Mixed {
    pub integer: Vec<u8>,
    pub numerator: Vec<u8>,
    pub denominator: Vec<u8>,
    /// Integer part and fraction make up the magnitude.
    pub exact: bool,
}

impl Mixed {
    pub fn is_zero(&self) -> bool {
        self.integer.is_empty() && self.numerator.is_empty()
    }
}

/// |coefficient| / 10^scale as a fraction over what `below` allows. With an integer part the fraction
/// is only of what stands behind the point, and one that comes to 1 is carried.
pub fn mixed(coefficient: i64, scale: u32, with_integer: bool, below: Denominator) -> Mixed {
    let (mut integer, mut part) = written(coefficient, scale as i32);
    if !with_integer {
        part.splice(0..0, integer.drain(..));
    }
    let part = part
        .iter()
        .fold(0, |sum, digit| sum * 10 + u64::from(*digit));
    let (mut numerator, denominator, exact) = match below {
        Denominator::Fixed(number) => {
            let product = part * u64::from(number);
            let top = rounded(product as i64, scale as i32, 0);
            (top.integer, digits(u64::from(number)), top.exact)
        }
        Denominator::Places(places) => {
            let most = 10u64.pow(places as u32) - 1;
            let (top, bottom, miss) = nearest(part, 10u64.pow(scale), most);
            (digits(top), digits(bottom), miss == 0)
        }
    };
    if with_integer && numerator == denominator {
        add_one(&mut integer);
        numerator.clear();
    }
    Mixed {
        integer: without_leading_zeros(&integer),
        numerator,
        denominator,
        exact,
    }
}

fn digits(number: u64) -> Vec<u8> {
    without_leading_zeros(&spelled(number))
}

/// The fraction nearest to top / unit, and how far off it is, times unit and the denominator: every
/// denominator is tried upward with its nearest numerator, and a later one is taken only where it
/// comes strictly closer.
fn nearest(top: u64, unit: u64, most: u64) -> (u64, u64, u64) {
    let numerator = |denominator: u64| (2 * top * denominator + unit) / (2 * unit);
    let miss = |denominator: u64| (top * denominator).abs_diff(numerator(denominator) * unit);
    let mut best = 1;
    for denominator in 2..=most {
        if miss(denominator) * best < miss(best) * denominator {
            best = denominator;
        }
    }
    (numerator(best), best, miss(best))
}

/// General's text for the magnitude without its sign, or none where it reaches 10^11.
pub fn general(coefficient: i64, scale: i32) -> Option<Decimal> {
    if rounded(coefficient, scale, 0).integer.len() > 11 {
        return None;
    }
    let (whole, _) = written(coefficient, scale);
    let places = without_leading_zeros(&whole).len().max(1);
    let mut shown = rounded(coefficient, scale, 10usize.saturating_sub(places));
    while shown.decimals.last() == Some(&0) {
        shown.decimals.pop();
    }
    Some(shown)
}
