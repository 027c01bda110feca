//! What is shown, and what showing gives.

/// Largest magnitude of fifteen digits.
const GREATEST_COEFFICIENT: u64 = 999_999_999_999_999;
const GREATEST_SCALE: u32 = 15;
const GREATEST_DAY: u32 = 2_958_465;
const GREATEST_MILLISECOND: u32 = 86_399_999;
const GREATEST_TEXT: usize = 1024;

#[derive(Clone, Debug, PartialEq, Eq)]
pub enum Value {
    Number { coefficient: i64, scale: u32 },
    Instant { day: u32, ms: u32 },
    Text(Vec<u16>),
}

impl Value {
    pub fn in_range(&self) -> bool {
        match self {
            Value::Number { coefficient, scale } => {
                coefficient.unsigned_abs() <= GREATEST_COEFFICIENT && *scale <= GREATEST_SCALE
            }
            Value::Instant { day, ms } => *day <= GREATEST_DAY && *ms <= GREATEST_MILLISECOND,
            Value::Text(text) => text.len() <= GREATEST_TEXT,
        }
    }

    /// Below 0, as the added minus asks; instants and texts never are.
    pub fn is_negative(&self) -> bool {
        matches!(self, Value::Number { coefficient, .. } if *coefficient < 0)
    }
}

/// A done showing: the text, the colour, the section (4 for text shown by no section), and whether the
/// text tells the value exactly, its sign aside.
#[derive(Clone, Debug, PartialEq, Eq)]
pub struct Reading {
    pub text: Vec<u16>,
    pub colour: u16,
    pub section: u16,
    pub exact: bool,
}

/// Why a done showing gives what it does, with the numbers of 02's P6: the section, by what it was chosen, what is said of
/// the first two sections where they stand before it, the minus, and the decimals cut.
#[derive(Clone, Copy, Debug, PartialEq, Eq)]
pub struct Reason {
    pub section: u16,
    pub choice: u16,
    pub tried: [u16; 2],
    pub minus: u16,
    pub cut: u16,
}

impl Reason {
    /// A text by section `section`, or by none where that is 4: nothing is tried for it.
    pub fn of_text(section: u16) -> Reason {
        Reason {
            section,
            choice: if section == 4 { 9 } else { 8 },
            tried: [0, 0],
            minus: 1,
            cut: 0,
        }
    }
}
