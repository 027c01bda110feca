//! Document 01, "The table": how words make up heads and items. No rule is tested here.

pub const HEAD_WORDS: usize = 12;

pub const GROUPING: u16 = 1;
pub const NO_MINUS: u16 = 2;
pub const TWELVE_HOUR: u16 = 4;

/// Item numbers.
pub mod item {
    pub const LITERAL: u16 = 1;
    pub const BLANK: u16 = 2;
    pub const FILL: u16 = 3;
    pub const ZERO_PLACE: u16 = 4;
    pub const HASH_PLACE: u16 = 5;
    pub const QUERY_PLACE: u16 = 6;
    pub const POINT: u16 = 7;
    pub const PERCENT: u16 = 8;
    pub const GENERAL: u16 = 9;
    pub const AT: u16 = 10;
    pub const YEAR: u16 = 11;
    pub const MONTH: u16 = 12;
    pub const DAY: u16 = 13;
    pub const HOUR: u16 = 14;
    pub const MINUTE: u16 = 15;
    pub const SECOND: u16 = 16;
    pub const PART_OF_SECOND: u16 = 17;
    pub const ELAPSED_HOURS: u16 = 18;
    pub const ELAPSED_MINUTES: u16 = 19;
    pub const ELAPSED_SECONDS: u16 = 20;
    pub const HALF_DAY: u16 = 21;
    pub const EXPONENT_PLUS: u16 = 22;
    pub const EXPONENT_MINUS: u16 = 23;
    pub const SOLIDUS: u16 = 24;
    pub const FIXED: u16 = 25;

    pub fn is_exponent(number: u16) -> bool {
        matches!(number, EXPONENT_PLUS | EXPONENT_MINUS)
    }
}

/// An item: its number and its operand.
#[derive(Clone, Copy, Debug, PartialEq, Eq)]
pub struct Item {
    pub number: u16,
    pub operand: u16,
}

impl Item {
    pub fn is_place(self) -> bool {
        (item::ZERO_PLACE..=item::QUERY_PLACE).contains(&self.number)
    }
}

/// One section's head, its words as they stand, and its items.
#[derive(Clone, Debug, Default, PartialEq, Eq)]
pub struct Entry {
    pub kind: u16,
    pub colour: u16,
    pub operator: u16,
    pub negative: u16,
    pub whole: u32,
    pub millionths: u32,
    pub shift: u16,
    pub flags: u16,
    pub decimals: u16,
    pub items: Vec<Item>,
}

fn low(number: u32) -> u16 {
    (number & 0xFFFF) as u16
}

fn high(number: u32) -> u16 {
    (number >> 16) as u16
}

fn joined(low: u16, high: u16) -> u32 {
    u32::from(low) | u32::from(high) << 16
}

/// The words of a table: the number of sections, all heads, then all items.
pub fn words(entries: &[Entry]) -> Vec<u16> {
    let mut words = vec![entries.len() as u16];
    for entry in entries {
        words.extend([
            entry.kind,
            entry.colour,
            entry.operator,
            entry.negative,
            low(entry.whole),
            high(entry.whole),
            low(entry.millionths),
            high(entry.millionths),
            entry.shift,
            entry.flags,
            entry.decimals,
            entry.items.len() as u16,
        ]);
    }
    for item in entries.iter().flat_map(|entry| &entry.items) {
        words.extend([item.number, item.operand]);
    }
    words
}

/// The entries of words that are exactly as many as their counts say; none for any other words.
pub fn entries(words: &[u16]) -> Option<Vec<Entry>> {
    let (count, rest) = words.split_first()?;
    let head_words = usize::from(*count) * HEAD_WORDS;
    if !(1..=4).contains(count) || rest.len() < head_words {
        return None;
    }
    let (heads, mut left) = rest.split_at(head_words);
    let mut entries = Vec::new();
    for head in heads.chunks(HEAD_WORDS) {
        let item_words = usize::from(head[11]) * 2;
        if left.len() < item_words {
            return None;
        }
        let (own, others) = left.split_at(item_words);
        entries.push(entry(head, own));
        left = others;
    }
    left.is_empty().then_some(entries)
}

fn entry(head: &[u16], items: &[u16]) -> Entry {
    let pair = |words: &[u16]| Item {
        number: words[0],
        operand: words[1],
    };
    Entry {
        kind: head[0],
        colour: head[1],
        operator: head[2],
        negative: head[3],
        whole: joined(head[4], head[5]),
        millionths: joined(head[6], head[7]),
        shift: head[8],
        flags: head[9],
        decimals: head[10],
        items: items.chunks(2).map(pair).collect(),
    }
}
