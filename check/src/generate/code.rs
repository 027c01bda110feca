//! Format codes: from the grammar, mutated from it, and at random.

mod fraction;

use self::fraction::fraction;
use crate::generate::LANDMARKS;
use crate::oracle::units;
use crate::random::Random;

const ALPHABET: &[u8] =
    b"00##??..,,%%@;;\"\"\\_*[]GeneralAM/PmydhsRd<>=-+/ ():!^&'~{}$x19EEE++--e`|mmhhss///8\x7f\n";

const BARE: &[u8] = b"$-+/():!^&'~{}<>= ";

/// Pieces that mutations put in, whole tokens and broken ones.
const PIECES: &[&str] = &[
    "0",
    "#",
    "?",
    ".",
    ",",
    "%",
    "@",
    ";",
    "General",
    "E+",
    "E-",
    "E+0",
    "E-00",
    "E",
    "e+",
    "/8",
    "/16",
    "/1000",
    "?/?",
    "0/0",
    "# ?/",
    "AM/PM",
    "A/P",
    "yy",
    "yyyy",
    "yyy",
    "m",
    "mm",
    "mmm",
    "mmmm",
    "mmmmm",
    "mmmmmm",
    "d",
    "dd",
    "ddd",
    "dddd",
    "h",
    "hh",
    "s",
    "ss",
    "[h]",
    "[mm]",
    "[s]",
    ".0",
    ".00",
    ".000",
    ".0000",
    "[Red]",
    "[Color7]",
    "[Color57]",
    "[>1]",
    "[<0]",
    "[=0.5]",
    "\"a\"",
    "\"\"",
    "\";\"",
    "\\;",
    "_)",
    "*x",
    "* ",
    "/",
    " ",
    "-",
    "(",
    ")",
    "[",
    "\"",
    "\\",
    "_",
    "*",
    "]",
    "1",
];

pub fn code(random: &mut Random) -> Vec<u16> {
    match random.weighted(&[60, 22, 10, 5, 3]) {
        0 => from_grammar(random),
        1 => mutated(random),
        2 => {
            let length = random.below(13);
            (0..length)
                .map(|_| u16::from(random.pick(ALPHABET)))
                .collect()
        }
        3 => {
            let length = random.below(20);
            (0..length).map(|_| any_unit(random)).collect()
        }
        _ => long(random),
    }
}

/// Mostly a code that is accepted.
pub fn from_grammar(random: &mut Random) -> Vec<u16> {
    let count = 1 + random.weighted(&[40, 30, 16, 13, 1]);
    let text_last = count > 1 && random.chance(25);
    let mut out = Vec::new();
    for index in 0..count {
        if index > 0 {
            out.push(u16::from(b';'));
        }
        section(random, index, count, text_last, &mut out);
    }
    out
}

fn section(random: &mut Random, index: usize, count: usize, text_last: bool, out: &mut Vec<u16>) {
    // Now and then a section is made without regard to where it stands.
    let stray = random.chance(3);
    let last = index + 1 == count;
    let kind = match (stray, index, last) {
        (true, ..) => random.below(7),
        (false, 3, _) => random.pick(&[0, 1, 3]),
        (false, _, true) if text_last => 3,
        _ if count == 1 => random.weighted(&[9, 11, 28, 7, 18, 16, 11]),
        _ => random.weighted(&[11, 12, 32, 0, 18, 16, 11]),
    };
    let bare_fourth = index == 3 && !stray;
    if !bare_fourth && random.chance(25) {
        colour(random, out);
    }
    let may_condition = match count {
        1 => kind == 1,
        _ => index < 2 && kind != 3,
    };
    if (may_condition && random.chance(45)) || (stray && random.chance(30)) {
        condition(random, out);
    }
    match kind {
        0 => literals(random, 4, out),
        1 => around(random, "General", out),
        2 => number(random, out),
        3 => text(random, out),
        4 => date_time(random, out),
        5 => scientific(random, out),
        _ => fraction(random, out),
    }
}

fn put(out: &mut Vec<u16>, text: &str) {
    out.extend(units(text));
}

fn colour(random: &mut Random, out: &mut Vec<u16>) {
    let names = [
        "Black", "White", "Red", "Green", "Blue", "Yellow", "Magenta", "Cyan",
    ];
    let name = match random.weighted(&[60, 36, 4]) {
        0 => random.pick(&names).to_string(),
        1 => format!("Color{}", random.between(1, 56)),
        _ => format!("Color{}", random.pick(&["0", "57", "01", "560", ""])),
    };
    put(out, &format!("[{name}]"));
}

fn condition(random: &mut Random, out: &mut Vec<u16>) {
    let operator = random.pick(&["=", "<", ">", "<=", ">=", "<>"]).to_string();
    let minus = if random.chance(30) { "-" } else { "" };
    let (coefficient, scale) = random.pick(&LANDMARKS);
    let mut number = plain(coefficient, scale);
    if random.chance(8) {
        number = format!("{}{number}", "0".repeat(random.between(1, 9)));
    }
    if random.chance(8) {
        let point = if scale == 0 { "." } else { "" };
        number = format!("{number}{point}{}", "0".repeat(random.between(1, 7)));
    }
    put(out, &format!("[{operator}{minus}{number}]"));
}

/// coefficient / 10^scale written out.
fn plain(coefficient: i64, scale: u32) -> String {
    let width = scale as usize + 1;
    let digits = format!("{coefficient:0width$}");
    let point = digits.len() - scale as usize;
    match scale {
        0 => digits,
        _ => format!("{}.{}", &digits[..point], &digits[point..]),
    }
}

fn any_unit(random: &mut Random) -> u16 {
    match random.weighted(&[50, 30, 10, 10]) {
        0 => u16::from(random.pick(ALPHABET)),
        1 => random.unit(),
        2 => random.pick(&[0, 127, 128, 255, 256, 0xD800, 0xDFFF, 0xFFFE, 0xFFFF]),
        _ => u16::from(random.pick(ALPHABET)) + 256,
    }
}

/// One literal, blank or fill.
fn literal(random: &mut Random, out: &mut Vec<u16>) {
    match random.weighted(&[40, 15, 20, 13, 12]) {
        0 => out.push(u16::from(random.pick(BARE))),
        1 => out.extend([u16::from(b'\\'), any_unit(random)]),
        2 => {
            let quote = u16::from(b'"');
            out.push(quote);
            for _ in 0..random.between(1, 4) {
                let unit = any_unit(random);
                out.push(if unit == quote { u16::from(b';') } else { unit });
            }
            out.push(quote);
        }
        3 => out.extend([u16::from(b'_'), any_unit(random)]),
        _ => out.extend([u16::from(b'*'), any_unit(random)]),
    }
}

fn literals(random: &mut Random, most: usize, out: &mut Vec<u16>) {
    for _ in 0..random.between(0, most) {
        literal(random, out);
    }
}

fn maybe_literal(random: &mut Random, out: &mut Vec<u16>) {
    if random.chance(12) {
        literal(random, out);
    }
}

fn around(random: &mut Random, middle: &str, out: &mut Vec<u16>) {
    literals(random, 2, out);
    put(out, middle);
    literals(random, 2, out);
}

fn text(random: &mut Random, out: &mut Vec<u16>) {
    for _ in 0..random.between(1, 3) {
        around(random, "@", out);
    }
}

/// A count that is mostly small, and now and then at its limit.
fn count_to(random: &mut Random, small: usize, limit: usize) -> usize {
    if random.chance(6) {
        random.between(limit - 1, limit + 1)
    } else {
        random.between(0, small)
    }
}

fn number(random: &mut Random, out: &mut Vec<u16>) {
    let integer = count_to(random, 6, 20);
    let decimals = count_to(random, 4, 15);
    let point = decimals > 0 || integer == 0 || random.chance(15);
    let grouping = random.chance(35);
    let percents = if random.chance(25) {
        count_to(random, 2, 5)
    } else {
        0
    };
    let dividing = if random.chance(25) {
        count_to(random, 2, 5)
    } else {
        0
    };
    let early = if point {
        random.below(dividing + 1)
    } else {
        dividing
    };
    percent_signs(random, percents / 2, out);
    places(random, integer, grouping, out);
    if integer > 0 {
        commas(random, early, out);
    }
    if point {
        out.push(u16::from(b'.'));
        maybe_literal(random, out);
        places(random, decimals.max(usize::from(integer == 0)), false, out);
        commas(random, dividing - early, out);
    }
    percent_signs(random, percents - percents / 2, out);
}

fn places(random: &mut Random, count: usize, grouping: bool, out: &mut Vec<u16>) {
    let style = random.below(4);
    for index in 0..count {
        let place = match style {
            0 => b'0',
            1 if index + 1 == count => b'0',
            1 => b'#',
            2 => b'?',
            _ => random.pick(b"0#?"),
        };
        out.push(u16::from(place));
        maybe_literal(random, out);
        if grouping && index + 1 < count && random.chance(40) {
            out.push(u16::from(b','));
        }
    }
}

fn commas(random: &mut Random, count: usize, out: &mut Vec<u16>) {
    for _ in 0..count {
        out.push(u16::from(b','));
        maybe_literal(random, out);
    }
}

fn percent_signs(random: &mut Random, count: usize, out: &mut Vec<u16>) {
    for _ in 0..count {
        out.push(u16::from(b'%'));
        maybe_literal(random, out);
    }
}

/// A mantissa, an E and exponent places; about one in five is broken.
fn scientific(random: &mut Random, out: &mut Vec<u16>) {
    let start = out.len();
    let integer = count_to(random, 4, 20).max(usize::from(!random.chance(2)));
    let decimals = count_to(random, 4, 15);
    maybe_literal(random, out);
    places(random, integer, false, out);
    if decimals > 0 || random.chance(15) {
        out.push(u16::from(b'.'));
        maybe_literal(random, out);
        places(random, decimals, false, out);
    }
    put(out, random.pick(&["E+", "E-"]));
    maybe_literal(random, out);
    for _ in 0..random.pick(&[1, 1, 1, 1, 2, 2, 2, 2, 3, 3, 3, 4, 0]) {
        out.push(u16::from(random.pick(b"00#")));
        maybe_literal(random, out);
    }
    if random.chance(8) {
        let at = random.between(start, out.len());
        let foreign = [",", "%", "E+", "E-", ".", "?", "/", "/", "E"];
        out.splice(at..at, units(random.pick(&foreign)));
    }
}

fn date_time(random: &mut Random, out: &mut Vec<u16>) {
    let elapsed = match random.weighted(&[75, 8, 8, 9]) {
        0 => None,
        chosen => Some(b"hms"[chosen - 1]),
    };
    let total = random.between(1, 6);
    let at = random.below(total);
    for index in 0..total {
        match elapsed {
            Some(letter) if index == at => elapsed_run(random, letter, out),
            _ => run(random, elapsed, out),
        }
        match random.weighted(&[45, 25, 8, 8, 14]) {
            0 => {}
            1 => literal(random, out),
            2 => out.push(u16::from(b',')),
            3 => out.push(u16::from(b'.')),
            _ => put(out, random.pick(&["AM/PM", "A/P", ":", "/"])),
        }
    }
}

fn elapsed_run(random: &mut Random, letter: u8, out: &mut Vec<u16>) {
    let length = if random.chance(15) {
        random.between(8, 10)
    } else {
        random.between(1, 3)
    };
    out.push(u16::from(b'['));
    out.extend(std::iter::repeat_n(u16::from(letter), length));
    out.push(u16::from(b']'));
    if letter == b's' {
        part_of_second(random, out);
    }
}

fn run(random: &mut Random, elapsed: Option<u8>, out: &mut Vec<u16>) {
    let mut letter = random.pick(b"ymmmdhhss");
    // Beside an elapsed token its plain equivalent is refused, so it is made only now and then.
    if elapsed == Some(letter) && !random.chance(10) {
        letter = b'd';
    }
    let length = match letter {
        b'y' => random.pick(&[2, 4]),
        b'm' => random.pick(&[1, 2, 1, 2, 3, 4, 5]),
        b'd' => random.between(1, 4),
        _ => random.between(1, 2),
    };
    // Equal letters side by side would make one longer run.
    if out.last() == Some(&u16::from(letter)) {
        out.push(u16::from(b':'));
    }
    out.extend(std::iter::repeat_n(u16::from(letter), length));
    if letter == b's' {
        part_of_second(random, out);
    }
}

fn part_of_second(random: &mut Random, out: &mut Vec<u16>) {
    if random.chance(45) {
        put(
            out,
            random.pick(&[".0", ".00", ".000", ".0", ".00", ".000", ".0000", "."]),
        );
    }
}

fn mutated(random: &mut Random) -> Vec<u16> {
    let mut out = from_grammar(random);
    for _ in 0..random.between(1, 4) {
        mutate(random, &mut out);
    }
    out
}

fn mutate(random: &mut Random, out: &mut Vec<u16>) {
    let at = random.below(out.len() + 1);
    match random.weighted(&[35, 25, 20, 10, 10]) {
        0 => {
            let piece = units(random.pick(PIECES));
            out.splice(at..at, piece);
        }
        1 if at < out.len() => {
            out.remove(at);
        }
        2 if at < out.len() => out[at] = any_unit(random),
        3 if at + 1 < out.len() => out.swap(at, at + 1),
        4 if at < out.len() => {
            let end = random.between(at, out.len().min(at + 6));
            let copy = out[at..end].to_vec();
            out.splice(at..at, copy);
        }
        _ => out.push(any_unit(random)),
    }
}

/// Around the greatest length, 254.
fn long(random: &mut Random) -> Vec<u16> {
    let length = random.between(250, 257);
    let mut out = Vec::new();
    while out.len() < length {
        match random.below(3) {
            0 => out.extend(from_grammar(random)),
            1 => literals(random, 8, &mut out),
            _ => out.extend(std::iter::repeat_n(u16::from(b' '), random.between(1, 250))),
        }
    }
    if random.chance(70) {
        out.truncate(length);
    }
    out
}
