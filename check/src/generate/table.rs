//! Tables: prepared and then damaged, built with no code behind them, and words at random.

mod fraction;

use self::fraction::fraction;
use crate::generate::{code, LANDMARKS};
use crate::oracle::prepare;
use crate::random::Random;

const HEAD_WORDS: usize = 12;

const GENERAL: u16 = 1;
const NUMBER: u16 = 2;
const TEXT: u16 = 3;
const DATE_TIME: u16 = 4;
const SCIENTIFIC: u16 = 5;
const FRACTION: u16 = 6;

pub fn table(random: &mut Random) -> Vec<u16> {
    match random.weighted(&[42, 40, 12, 6]) {
        0 => {
            let mut words = prepared(random);
            for _ in 0..random.between(1, 3) {
                damage(random, &mut words);
            }
            words
        }
        1 => built(random),
        2 => {
            let mut words = built(random);
            damage(random, &mut words);
            words
        }
        _ => {
            let length = random.below(60);
            (0..length).map(|_| small_word(random)).collect()
        }
    }
}

/// The table of an accepted code.
fn prepared(random: &mut Random) -> Vec<u16> {
    loop {
        let words = prepare(&code::from_grammar(random), usize::MAX).words;
        if !words.is_empty() {
            return words;
        }
    }
}

fn small_word(random: &mut Random) -> u16 {
    match random.weighted(&[70, 20, 10]) {
        0 => random.below(5) as u16,
        1 => random.below(60) as u16,
        _ => random.unit(),
    }
}

fn damage(random: &mut Random, words: &mut Vec<u16>) {
    if words.is_empty() {
        return words.push(small_word(random));
    }
    let at = random.below(words.len());
    match random.weighted(&[20, 25, 15, 6, 6, 14, 14]) {
        0 => words[at] = small_word(random),
        1 => words[at] = words[at].wrapping_add(random.pick(&[1, u16::MAX, 2, 3, 4])),
        2 => {
            let other = random.below(words.len());
            words.swap(at, other);
        }
        3 => {
            words.remove(at);
        }
        4 => words.insert(at, small_word(random)),
        5 => change_item(random, words, remove_item),
        _ => change_item(random, words, repeat_item),
    }
}

/// Changes the items of one section and keeps its count of items right, so that the damage is seen
/// by the rules for items and not by the length alone.
fn change_item(random: &mut Random, words: &mut Vec<u16>, change: fn(&mut Vec<u16>, usize)) {
    let sections = usize::from(words[0]);
    let count_at = |section: usize| (section + 1) * HEAD_WORDS;
    if sections == 0 || words.len() <= count_at(sections - 1) {
        return;
    }
    let counts: Vec<usize> = (0..sections)
        .map(|s| usize::from(words[count_at(s)]))
        .collect();
    let section = random.below(sections);
    let before: usize = counts[..section].iter().sum();
    let first = 1 + sections * HEAD_WORDS + 2 * before;
    if counts[section] == 0 || words.len() < first + 2 * counts[section] {
        return;
    }
    let length = words.len();
    change(words, first + 2 * random.below(counts[section]));
    let grown = words.len() > length;
    let count = if grown {
        counts[section] + 1
    } else {
        counts[section] - 1
    };
    words[count_at(section)] = count as u16;
}

fn remove_item(words: &mut Vec<u16>, at: usize) {
    words.drain(at..at + 2);
}

fn repeat_item(words: &mut Vec<u16>, at: usize) {
    let copy = [words[at], words[at + 1]];
    words.splice(at..at, copy);
}

/// One section of a built table.
#[derive(Default)]
struct Section {
    kind: u16,
    colour: u16,
    condition: [u16; 6],
    shift: u16,
    flags: u16,
    decimals: u16,
    items: Vec<[u16; 2]>,
}

/// A table that mostly keeps the rules, often one that no code makes.
fn built(random: &mut Random) -> Vec<u16> {
    let count = 1 + random.weighted(&[40, 25, 18, 17]);
    let text_last = random.chance(if count == 1 { 8 } else { 25 });
    let mut sections: Vec<Section> = (0..count)
        .map(|index| section(random, index, count, text_last))
        .collect();
    set_no_minus(&mut sections);
    if random.chance(3) {
        fill_up(random, &mut sections);
    }
    words(&sections)
}

fn words(sections: &[Section]) -> Vec<u16> {
    let mut words = vec![sections.len() as u16];
    for section in sections {
        words.extend([section.kind, section.colour]);
        words.extend(section.condition);
        words.extend([section.shift, section.flags, section.decimals]);
        words.push(section.items.len() as u16);
    }
    words.extend(sections.iter().flat_map(|section| section.items.concat()));
    words
}

/// Brings the items to their greatest count or one past it, which no code of 254 units with several
/// sections can.
fn fill_up(random: &mut Random, sections: &mut [Section]) {
    let total: usize = sections.iter().map(|section| section.items.len()).sum();
    let wanted = random.between(254, 255);
    for _ in total..wanted {
        let chosen = random.below(sections.len());
        sections[chosen].items.push([1, random.unit()]);
    }
}

fn section(random: &mut Random, index: usize, count: usize, text_last: bool) -> Section {
    // Now and then a section is made without regard to where it stands.
    let stray = random.chance(3);
    let kind = match index {
        _ if stray => random.below(7) as u16,
        _ if text_last && index + 1 == count => TEXT,
        3 => random.pick(&[0, GENERAL, TEXT]),
        _ => random.pick(&[
            0, GENERAL, NUMBER, NUMBER, NUMBER, DATE_TIME, DATE_TIME, SCIENTIFIC, SCIENTIFIC,
            FRACTION, FRACTION,
        ]),
    };
    let mut section = Section {
        kind,
        ..Section::default()
    };
    if (index < 3 && random.chance(25)) || (stray && random.chance(30)) {
        section.colour = random.between(1, if stray { 57 } else { 56 }) as u16;
    }
    let may_condition = match count {
        1 => kind == GENERAL,
        _ => index < 2 && kind != TEXT,
    };
    if (may_condition && random.chance(40)) || (stray && random.chance(30)) {
        section.condition = condition(random);
    }
    match kind {
        GENERAL => around(random, &mut section.items, [9, 0]),
        NUMBER => number(random, &mut section),
        TEXT => (0..random.between(1, 3)).for_each(|_| around(random, &mut section.items, [10, 0])),
        DATE_TIME => date_time(random, &mut section),
        SCIENTIFIC => scientific(random, &mut section),
        FRACTION => fraction(random, &mut section),
        _ => literals(random, &mut section.items, 4),
    }
    section
}

/// Operator, negative, whole part and millionths, low words first.
fn condition(random: &mut Random) -> [u16; 6] {
    let (whole, millionths) = if random.chance(70) {
        let (coefficient, scale) = random.pick(&LANDMARKS);
        let unit = 10i64.pow(scale);
        let rest = coefficient % unit * 1_000_000 / unit;
        ((coefficient / unit) as u32, rest as u32)
    } else {
        (
            random.below(1_000_000_000) as u32,
            random.below(1_000_000) as u32,
        )
    };
    let negative = random.chance(30) && whole + millionths > 0;
    [
        random.between(1, 6) as u16,
        u16::from(negative),
        whole as u16,
        (whole >> 16) as u16,
        millionths as u16,
        (millionths >> 16) as u16,
    ]
}

/// One literal or blank, and at most one fill a section. Units are any, also those that a code
/// would read as a token.
fn literal(random: &mut Random, items: &mut Vec<[u16; 2]>) {
    let unit = match random.below(3) {
        0 => random.unit(),
        _ => u16::from(random.pick(b"0#?.,%/;@ mhs\"\\*_[]G")),
    };
    let fill_may = !items.iter().any(|one| one[0] == 3) || random.chance(2);
    let number = match random.weighted(&[60, 20, 20]) {
        2 if fill_may => 3,
        1 => 2,
        _ => 1,
    };
    items.push([number, unit]);
}

fn literals(random: &mut Random, items: &mut Vec<[u16; 2]>, most: usize) {
    for _ in 0..random.between(0, most) {
        literal(random, items);
    }
}

fn maybe_literal(random: &mut Random, items: &mut Vec<[u16; 2]>) {
    if random.chance(15) {
        literal(random, items);
    }
}

fn around(random: &mut Random, items: &mut Vec<[u16; 2]>, middle: [u16; 2]) {
    literals(random, items, 2);
    items.push(middle);
    literals(random, items, 2);
}

/// Mostly below `small`, now and then at the limit and one to either side of it.
fn count_to(random: &mut Random, small: usize, limit: usize) -> usize {
    if random.chance(6) {
        random.between(limit - 1, limit + 1)
    } else {
        random.below(small)
    }
}

/// Mostly none.
fn few(random: &mut Random, percent: usize, most: usize) -> usize {
    if random.chance(percent) {
        random.between(1, most)
    } else {
        0
    }
}

fn number(random: &mut Random, section: &mut Section) {
    let integer = count_to(random, 8, 20);
    let decimals = count_to(random, 4, 15).max(usize::from(integer == 0));
    let percents = few(random, 20, 6);
    section.shift = (15 + 2 * percents - 3 * few(random, 30, 5)) as u16;
    section.decimals = decimals as u16;
    if integer >= 2 && random.chance(40) {
        section.flags |= 1;
    }
    let items = &mut section.items;
    places_around_point(random, items, integer, decimals);
    for _ in 0..percents {
        let at = random.below(items.len() + 1);
        items.insert(at, [8, 0]);
    }
    maybe_literal(random, items);
}

/// Now and then without an integer place, with none or too many exponent places, or with an item
/// that belongs to another kind or stands twice.
fn scientific(random: &mut Random, section: &mut Section) {
    let integer = count_to(random, 6, 20).max(usize::from(!random.chance(2)));
    let decimals = count_to(random, 4, 15);
    let exponent = random.pick(&[1, 1, 1, 2, 2, 2, 3, 3, 3, 4, 0]);
    section.decimals = decimals as u16;
    let items = &mut section.items;
    places_around_point(random, items, integer, decimals);
    maybe_literal(random, items);
    items.push([random.pick(&[22, 23]), 0]);
    for power in (0..exponent).rev() {
        maybe_literal(random, items);
        let place = if random.chance(2) {
            6
        } else {
            random.pick(&[4, 5])
        };
        items.push([place, power + 16]);
    }
    maybe_literal(random, items);
    if random.chance(5) {
        let at = random.below(items.len() + 1);
        items.insert(
            at,
            random.pick(&[[7, 0], [8, 0], [22, 0], [23, 0], [4, 16]]),
        );
    }
}

fn places_around_point(
    random: &mut Random,
    items: &mut Vec<[u16; 2]>,
    integer: usize,
    decimals: usize,
) {
    places(random, items, (0..integer as i32).rev());
    if decimals > 0 || random.chance(15) {
        maybe_literal(random, items);
        items.push([7, 0]);
    }
    places(random, items, (1..=decimals as i32).map(|power| -power));
}

fn places(random: &mut Random, items: &mut Vec<[u16; 2]>, powers: impl Iterator<Item = i32>) {
    for power in powers {
        maybe_literal(random, items);
        items.push([random.pick(&[4, 5, 6]), (power + 16) as u16]);
    }
}

fn date_time(random: &mut Random, section: &mut Section) {
    let elapsed = random.weighted(&[70, 10, 10, 10]);
    let total = random.between(1, 7);
    let elapsed_at = random.below(total);
    for index in 0..total {
        let item = if elapsed > 0 && index == elapsed_at {
            [17 + elapsed as u16, random.between(1, 9) as u16]
        } else {
            plain_item(random, elapsed)
        };
        section.items.push(item);
        if matches!(item[0], 16 | 20) && random.chance(40) {
            section.items.push([17, random.between(1, 3) as u16]);
        }
        if random.chance(12) {
            section.items.push([21, random.between(1, 2) as u16]);
        }
        maybe_literal(random, &mut section.items);
    }
    tell_minutes(random, elapsed, &mut section.items);
    if section.items.iter().any(|one| one[0] == 21) {
        section.flags |= 4;
    }
}

/// Short m runs behind hours or before seconds become minutes, or long months where the section has
/// elapsed minutes.
fn tell_minutes(random: &mut Random, elapsed: usize, items: &mut [[u16; 2]]) {
    let is_run = |one: &&[u16; 2]| matches!(one[0], 11..=16 | 18..=20);
    for at in 0..items.len() {
        let earlier = items[..at].iter().rev().find(is_run);
        let later = items[at + 1..].iter().find(is_run);
        let minutes = earlier.is_some_and(|one| matches!(one[0], 14 | 18))
            || later.is_some_and(|one| matches!(one[0], 16 | 20));
        if minutes && items[at][0] == 12 && items[at][1] <= 2 {
            items[at] = match elapsed {
                2 => [12, random.between(3, 5) as u16],
                _ => [15, items[at][1]],
            };
        }
    }
}

/// A plain date item that fits beside the section's elapsed item (1 hours, 2 minutes, 3 seconds); an
/// m is a month for now.
fn plain_item(random: &mut Random, elapsed: usize) -> [u16; 2] {
    let run = |random: &mut Random, most| random.between(1, most) as u16;
    match random.below(7) {
        0 => [11, random.pick(&[2, 4])],
        1 => [13, run(random, 4)],
        2 if elapsed != 1 => [14, run(random, 2)],
        3 if elapsed != 3 => [16, run(random, 2)],
        4 | 5 => [12, run(random, 2)],
        _ => [12, run(random, 5)],
    }
}

/// Flag 2 by the rule for the added minus.
fn set_no_minus(sections: &mut [Section]) {
    let counted = sections.iter().take(3).filter(|s| s.kind != TEXT).count();
    let own = |section: &Section| section.condition[0] != 0;
    let named = match counted {
        3 => !own(&sections[1]),
        2 => !own(&sections[0]) && !own(&sections[1]),
        _ => false,
    };
    if named {
        sections[1].flags |= 2;
    }
}
