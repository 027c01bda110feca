//! The answer list.

use std::fmt;

/// An answer, with its number. Preparing tests 1 to 7 in that order, showing 8 to 13, putting a row 16 and then as showing, ending a stream
/// 15 and then as preparing; the first that applies is given.
#[repr(u16)]
#[derive(Clone, Copy, Debug, PartialEq, Eq)]
pub enum Answer {
    Done = 0,
    /// The code has no unit, or more than 254.
    CodeLength = 1,
    /// A unit starts no token, or its token is broken; place: the unit.
    Token = 2,
    /// There are more than four sections; place: the fourth semicolon's unit.
    SectionCount = 3,
    /// A section fits no kind; place: the section.
    Kind = 4,
    /// A section stands where it may not; place: the section.
    Standing = 5,
    /// A count limit is passed; place: the section.
    Limit = 6,
    /// The table needs more words than lent.
    TableRoom = 7,
    /// The words lent as a table break a table rule.
    Table = 8,
    /// The value is out of range.
    Range = 9,
    /// No section takes the number or instant.
    NoSection = 10,
    /// The section chosen can't show that sort of value.
    Sort = 11,
    /// General, rounded to a whole number, reaches 10^11.
    General = 12,
    /// The text is longer than the room.
    TextRoom = 13,
    /// The stream has ended.
    Ended = 15,
    /// The row is 64 or above.
    Row = 16,
}

impl Answer {
    /// Every answer that a call gives, in the order of their numbers.
    pub const ALL: [Answer; 16] = [
        Answer::Done,
        Answer::CodeLength,
        Answer::Token,
        Answer::SectionCount,
        Answer::Kind,
        Answer::Standing,
        Answer::Limit,
        Answer::TableRoom,
        Answer::Table,
        Answer::Range,
        Answer::NoSection,
        Answer::Sort,
        Answer::General,
        Answer::TextRoom,
        Answer::Ended,
        Answer::Row,
    ];

    /// The answer with this number, where a call gives it.
    pub fn of(number: u16) -> Option<Answer> {
        Answer::ALL
            .into_iter()
            .find(|answer| answer.number() == number)
    }

    /// The number that the C calls return for it.
    pub fn number(self) -> u16 {
        self as u16
    }

    /// A sentence for the person who wrote the code.
    pub fn text(self) -> &'static str {
        match self {
            Answer::Done => "Done.",
            Answer::CodeLength => "The code is empty or longer than 254 signs.",
            Answer::Token => {
                "A sign means nothing here, or a quote, bracket or run of letters is broken."
            }
            Answer::SectionCount => "The code has more than four sections.",
            Answer::Kind => "The parts of this section do not go together.",
            Answer::Standing => "This section may not stand here.",
            Answer::Limit => {
                "This section has too many places, percents, commas, digits or letters."
            }
            Answer::TableRoom => "The memory lent for the table is too short.",
            Answer::Table => "The table is damaged or was not prepared from a code.",
            Answer::Range => "The value is out of range.",
            Answer::NoSection => "No section takes this value.",
            Answer::Sort => "The section that takes this value cannot show its kind.",
            Answer::General => "The number is too large for General.",
            Answer::TextRoom => "The text is too long for the room.",
            Answer::Ended => "The code has ended already.",
            Answer::Row => "The board has no such row.",
        }
    }
}

/// An answer other than "done". Sections and units are counted from 0.
///
/// ```
/// use numfmt::{Answer, Table};
///
/// let refusal = Table::prepare("0\"salmon").unwrap_err();
/// assert_eq!((refusal.answer, refusal.place), (Answer::Token, 1));
/// assert_eq!(refusal.answer.number(), 2);
/// assert_eq!(refusal.text(), "A sign means nothing here, or a quote, bracket or run of letters is broken.");
/// ```
#[derive(Clone, Copy, Debug, PartialEq, Eq)]
pub struct Refusal {
    pub answer: Answer,
    /// A unit for answers 2 and 3, a section for 4, 5 and 6, else 0.
    pub place: u32,
}

impl Refusal {
    /// The refusal that a call's numbers tell; none where they tell that all is done.
    pub(crate) fn told(answer: u16, place: u32) -> Result<(), Refusal> {
        match Answer::of(answer).expect("a call's answer is in the list") {
            Answer::Done => Ok(()),
            answer => Err(Refusal { answer, place }),
        }
    }

    /// A sentence for the person who wrote the code.
    pub fn text(&self) -> &'static str {
        self.answer.text()
    }
}

impl fmt::Display for Refusal {
    fn fmt(&self, f: &mut fmt::Formatter) -> fmt::Result {
        let number = self.answer.number();
        match number {
            2..=6 => write!(f, "{} (answer {number}, place {})", self.text(), self.place),
            _ => write!(f, "{} (answer {number})", self.text()),
        }
    }
}

impl std::error::Error for Refusal {}
