//! Document 01, "Table rules": tested on the words alone, whether or not a code makes them.

use super::code::Kind;
use super::table::{entries, item, Entry, Item, GROUPING, NO_MINUS, TWELVE_HOUR};

const MOST_ITEMS: usize = 254;

const LITERAL: u16 = Kind::Literal as u16;
const GENERAL: u16 = Kind::General as u16;
const NUMBER: u16 = Kind::Number as u16;
const TEXT: u16 = Kind::Text as u16;
const DATE_TIME: u16 = Kind::DateTime as u16;
const SCIENTIFIC: u16 = Kind::Scientific as u16;
const FRACTION: u16 = Kind::Fraction as u16;

/// True when the words break no table rule.
pub fn check_table(words: &[u16]) -> bool {
    let Some(entries) = entries(words) else {
        return false;
    };
    let items: usize = entries.iter().map(|entry| entry.items.len()).sum();
    items <= MOST_ITEMS
        && entries.iter().all(ranges)
        && entries.iter().all(items_fit_kind)
        && entries.iter().all(derived_words)
        && (0..entries.len()).all(|index| may_stand(&entries, index))
        && (0..entries.len()).all(|index| no_minus_flag(&entries, index))
}

/// Every word in its range that needs no look at another section or item.
fn ranges(entry: &Entry) -> bool {
    entry.kind <= FRACTION
        && entry.colour <= 56
        && condition_ranges(entry)
        && entry.flags <= GROUPING + NO_MINUS + TWELVE_HOUR
        && entry.items.iter().all(|item| operand_range(*item))
}

fn condition_ranges(entry: &Entry) -> bool {
    let is_zero = entry.whole == 0 && entry.millionths == 0;
    entry.operator <= 6
        && entry.negative <= 1
        && entry.whole <= 999_999_999
        && entry.millionths <= 999_999
        && !(entry.negative == 1 && is_zero)
        && (entry.operator != 0 || is_zero)
}

fn operand_range(one: Item) -> bool {
    let run = |least, greatest| (least..=greatest).contains(&one.operand);
    match one.number {
        item::LITERAL | item::BLANK | item::FILL => true,
        // Powers are followed place by place below.
        item::ZERO_PLACE | item::HASH_PLACE | item::QUERY_PLACE => true,
        item::POINT | item::PERCENT | item::GENERAL | item::AT => one.operand == 0,
        item::EXPONENT_PLUS | item::EXPONENT_MINUS | item::SOLIDUS => one.operand == 0,
        item::FIXED => run(1, 999),
        item::YEAR => one.operand == 2 || one.operand == 4,
        item::MONTH => run(1, 5),
        item::DAY => run(1, 4),
        item::HOUR | item::MINUTE | item::SECOND | item::HALF_DAY => run(1, 2),
        item::PART_OF_SECOND => run(1, 3),
        item::ELAPSED_HOURS | item::ELAPSED_MINUTES | item::ELAPSED_SECONDS => run(1, 9),
        _ => false,
    }
}

fn count(entry: &Entry, test: impl Fn(u16) -> bool) -> usize {
    entry.items.iter().filter(|one| test(one.number)).count()
}

fn count_of(entry: &Entry, number: u16) -> usize {
    count(entry, |other| other == number)
}

fn is_date_item(number: u16) -> bool {
    (item::YEAR..=item::SECOND).contains(&number) || is_elapsed(number)
}

fn is_elapsed(number: u16) -> bool {
    (item::ELAPSED_HOURS..=item::ELAPSED_SECONDS).contains(&number)
}

fn is_place(number: u16) -> bool {
    (item::ZERO_PLACE..=item::QUERY_PLACE).contains(&number)
}

/// The kind's own items are there, nothing foreign is, and at most one fill.
fn items_fit_kind(entry: &Entry) -> bool {
    let only = |own: &dyn Fn(u16) -> bool| {
        count(entry, |number| number <= item::FILL || own(number)) == entry.items.len()
    };
    let fits = match entry.kind {
        LITERAL => only(&|_| false),
        GENERAL => only(&|number| number == item::GENERAL) && count_of(entry, item::GENERAL) == 1,
        TEXT => only(&|number| number == item::AT) && count_of(entry, item::AT) >= 1,
        NUMBER => {
            only(&|n| is_place(n) || n == item::POINT || n == item::PERCENT) && number_items(entry)
        }
        SCIENTIFIC => {
            only(&|n| is_place(n) || n == item::POINT || item::is_exponent(n))
                && scientific_items(entry)
        }
        FRACTION => {
            only(&|n| is_place(n) || n == item::SOLIDUS || n == item::FIXED)
                && fraction_items(entry)
        }
        DATE_TIME => {
            only(&|n| is_date_item(n) || n == item::PART_OF_SECOND || n == item::HALF_DAY)
                && date_items(entry)
        }
        _ => false,
    };
    fits && count_of(entry, item::FILL) <= 1
}

fn number_items(entry: &Entry) -> bool {
    places_in(&entry.items) >= 1
        && count_of(entry, item::PERCENT) <= 5
        && places_around_point(&entry.items)
}

/// The mantissa like a number's places, with an integer place; behind the one E one to three places
/// `0` or `#` down to power 0.
fn scientific_items(entry: &Entry) -> bool {
    let (mantissa, exponent) = around_exponent(entry);
    count(entry, item::is_exponent) == 1
        && integer_places(mantissa) >= 1
        && places_around_point(mantissa)
        && exponent
            .iter()
            .all(|one| !matches!(one.number, item::POINT | item::QUERY_PLACE))
        && (1..=3).contains(&places_in(exponent))
        && powers_run_down(exponent)
}

/// The items before the first E and those behind it; all are before where there is none.
fn around_exponent(entry: &Entry) -> (&[Item], &[Item]) {
    match entry
        .items
        .iter()
        .position(|one| item::is_exponent(one.number))
    {
        Some(at) => (&entry.items[..at], &entry.items[at + 1..]),
        None => (&entry.items, &[]),
    }
}

/// Items around the one solidus: those before the numerator, the run of places that is the numerator,
/// the fixed number or run of places behind it, and the rest.
pub fn fraction_parts(items: &[Item]) -> Option<[&[Item]; 4]> {
    let mut parts = items.split(|one| one.number == item::SOLIDUS);
    let (Some(before), Some(behind), None) = (parts.next(), parts.next(), parts.next()) else {
        return None;
    };
    let no_place = |one: &Item| !one.is_place();
    let numerator = before.iter().rposition(no_place).map_or(0, |at| at + 1);
    let denominator_end = match behind.first() {
        Some(one) if one.number == item::FIXED => 1,
        _ => behind.iter().position(no_place).unwrap_or(behind.len()),
    };
    let (front, numerator) = before.split_at(numerator);
    let (denominator, rest) = behind.split_at(denominator_end);
    Some([front, numerator, denominator, rest])
}

/// The three runs in their limits down to power 0, no place or fixed number elsewhere, and a literal
/// between integer places and the numerator.
fn fraction_items(entry: &Entry) -> bool {
    let Some([front, numerator, denominator, rest]) = fraction_parts(&entry.items) else {
        return false;
    };
    places_in(front) <= 20
        && (1..=20).contains(&numerator.len())
        && (1..=3).contains(&denominator.len())
        && [front, numerator, denominator]
            .into_iter()
            .all(powers_run_down)
        && places_in(rest) == 0
        && !front
            .iter()
            .chain(rest)
            .any(|one| one.number == item::FIXED)
        && literal_behind_places(front)
}

fn literal_behind_places(front: &[Item]) -> bool {
    let last = front.iter().rposition(|one| one.is_place());
    last.is_none_or(|last| {
        let mut behind = front[last..].iter();
        behind.any(|one| one.number == item::LITERAL)
    })
}

fn places_around_point(items: &[Item]) -> bool {
    let points = items.iter().filter(|one| one.number == item::POINT);
    points.count() <= 1
        && integer_places(items) <= 20
        && decimal_places(items) <= 15
        && powers_run_down(items)
}

/// Where the point stands; behind everything when there is none.
fn point(items: &[Item]) -> usize {
    let at = items.iter().position(|one| one.number == item::POINT);
    at.unwrap_or(items.len())
}

fn places_in(items: &[Item]) -> usize {
    items.iter().filter(|one| one.is_place()).count()
}

fn integer_places(items: &[Item]) -> usize {
    places_in(&items[..point(items)])
}

fn decimal_places(items: &[Item]) -> usize {
    places_in(&items[point(items)..])
}

/// Down by one from the first place; the last integer place then has power 0.
fn powers_run_down(items: &[Item]) -> bool {
    let first = integer_places(items) as i32 - 1;
    let places = items.iter().filter(|one| one.is_place());
    places
        .zip(0..)
        .all(|(place, index)| i32::from(place.operand) == first - index + 16)
}

fn date_items(entry: &Entry) -> bool {
    count(entry, is_date_item) >= 1
        && (0..entry.items.len()).all(|at| minutes_rule(&entry.items, at))
        && (0..entry.items.len()).all(|at| follows_seconds(&entry.items, at))
        && elapsed_stands_alone(entry)
}

/// An m run of 1 or 2 is minutes exactly when the nearest earlier date item is hours, or the nearest
/// later one is seconds.
fn minutes_rule(items: &[Item], at: usize) -> bool {
    let earlier = items[..at].iter().rev().find(|i| is_date_item(i.number));
    let later = items[at + 1..].iter().find(|i| is_date_item(i.number));
    let minutes = earlier.is_some_and(|i| matches!(i.number, item::HOUR | item::ELAPSED_HOURS))
        || later.is_some_and(|i| matches!(i.number, item::SECOND | item::ELAPSED_SECONDS));
    match items[at].number {
        item::MONTH => items[at].operand > 2 || !minutes,
        item::MINUTE => minutes,
        _ => true,
    }
}

fn follows_seconds(items: &[Item], at: usize) -> bool {
    items[at].number != item::PART_OF_SECOND
        || (at > 0 && matches!(items[at - 1].number, item::SECOND | item::ELAPSED_SECONDS))
}

fn elapsed_stands_alone(entry: &Entry) -> bool {
    let beside = |elapsed, plain| count_of(entry, elapsed) > 0 && count_of(entry, plain) > 0;
    count(entry, is_elapsed) <= 1
        && !beside(item::ELAPSED_HOURS, item::HOUR)
        && !beside(item::ELAPSED_MINUTES, item::MINUTE)
        && !beside(item::ELAPSED_SECONDS, item::SECOND)
}

/// Shift, decimal places and the flags that one section's items settle.
fn derived_words(entry: &Entry) -> bool {
    let number = entry.kind == NUMBER;
    let decimals = match entry.kind {
        NUMBER | SCIENTIFIC => decimal_places(around_exponent(entry).0),
        _ => 0,
    };
    let may_group = number && integer_places(&entry.items) >= 2;
    let twelve_hour = count_of(entry, item::HALF_DAY) > 0;
    usize::from(entry.decimals) == decimals
        && (if number {
            tells_commas(entry)
        } else {
            entry.shift == 0
        })
        && (may_group || entry.flags & GROUPING == 0)
        && (entry.flags & TWELVE_HOUR != 0) == twelve_hour
}

/// shift = 15 + 2 percents - 3 commas for some 0 to 5 dividing commas.
fn tells_commas(entry: &Entry) -> bool {
    let percents = count_of(entry, item::PERCENT);
    (0..=5).any(|commas| usize::from(entry.shift) + 3 * commas == 15 + 2 * percents)
}

fn may_stand(entries: &[Entry], index: usize) -> bool {
    let entry = &entries[index];
    let condition_may = match (entries.len(), index) {
        (1, _) => entry.kind == GENERAL,
        (_, 0 | 1) => entry.kind != TEXT,
        _ => false,
    };
    let fourth_may = matches!(entry.kind, TEXT | GENERAL | LITERAL) && entry.colour == 0;
    (entry.kind != TEXT || index + 1 == entries.len())
        && (entry.operator == 0 || condition_may)
        && (index != 3 || fourth_may)
}

/// N: the sections that are neither text nor fourth.
pub fn counted(entries: &[Entry]) -> usize {
    let counts = |(index, entry): &(usize, &Entry)| *index < 3 && entry.kind != TEXT;
    entries.iter().enumerate().filter(counts).count()
}

/// Flag 2 is set exactly on a second section that exception (a) names.
fn no_minus_flag(entries: &[Entry], index: usize) -> bool {
    let n = counted(entries);
    let named =
        index == 1 && entries[1].operator == 0 && (n == 3 || (n == 2 && entries[0].operator == 0));
    (entries[index].flags & NO_MINUS != 0) == named
}
