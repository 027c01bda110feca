//! Tables that own their words, values, and what is shown of them.

use crate::{calls, Answer, Refusal, TABLE_WORDS};

const FIRST_ROOM: usize = 256;

/// A value to show.
#[derive(Clone, Copy, Debug, PartialEq, Eq)]
pub enum Value<'a> {
    /// coefficient / 10^scale: at most fifteen digits, scale 0 to 15.
    Number { coefficient: i64, scale: u32 },
    /// Day 0 to 2,958,465 (day 1 is 1 January 1900), millisecond of the day 0 to 86,399,999.
    Instant { day: u32, millisecond: u32 },
    /// At most [`TEXT_MOST`](crate::TEXT_MOST) units of UTF-16.
    Text(&'a str),
}

/// A text that a table shows.
#[derive(Clone, Debug, PartialEq, Eq)]
pub struct Shown {
    /// A unit that is no UTF-16 stands as U+FFFD; [`calls`] give the units themselves.
    pub text: String,
    /// 0 for none, 1 to 8 for black, white, red, green, blue, yellow, magenta and cyan, else a colour by number, to 56.
    pub colour: u16,
    /// 0 to 3, or 4 for a text that no section shows.
    pub section: u16,
    /// Whether the value is shown exactly, its sign aside: nothing was rounded or cut. So is every text, and every value in a section
    /// of literals.
    pub exact: bool,
}

/// Words that keep the table rules: made from a code, or checked.
///
/// ```
/// use numfmt::{Table, Value};
///
/// let table = Table::prepare("#,##0.00;[Red](#,##0.00)")?;
/// let shown = table.show(&Value::Number { coefficient: -1234565, scale: 3 })?;
/// assert_eq!((shown.text.as_str(), shown.colour, shown.section), ("(1,234.57)", 3, 1));
/// assert!(!shown.exact && table.show_number(-123457, 2)?.exact);
/// # Ok::<(), numfmt::Refusal>(())
/// ```
#[derive(Clone, Debug, PartialEq, Eq)]
pub struct Table(Vec<u16>);

impl Table {
    /// The table of a code. Refuses with 1 to 6.
    pub fn prepare(code: &str) -> Result<Table, Refusal> {
        Table::prepare_units(&units(code))
    }

    /// The table of a code that is given as units, which may be any.
    pub fn prepare_units(code: &[u16]) -> Result<Table, Refusal> {
        let mut words = vec![0; TABLE_WORDS];
        let prepared = calls::prepare(code, &mut words);
        Table::told(prepared, words)
    }

    /// The table that preparing wrote in front of these words, or its refusal.
    pub(crate) fn told(prepared: calls::Prepared, mut words: Vec<u16>) -> Result<Table, Refusal> {
        Refusal::told(prepared.answer, prepared.place)?;
        words.truncate(prepared.words as usize);
        Ok(Table(words))
    }

    /// Words from elsewhere, as from a card. Refuses with 8 what breaks a table rule.
    ///
    /// ```
    /// use numfmt::{Answer, Table};
    ///
    /// let mut words = Table::prepare("0")?.words().to_vec();
    /// assert_eq!(words, [1, 2, 0, 0, 0, 0, 0, 0, 0, 15, 0, 0, 1, 4, 16]);
    /// assert_eq!(Table::from_words(&words)?.show_number(7, 0)?.text, "7");
    ///
    /// words[14] = 17;
    /// assert_eq!(Table::from_words(&words).unwrap_err().answer, Answer::Table);
    /// # Ok::<(), numfmt::Refusal>(())
    /// ```
    pub fn from_words(words: &[u16]) -> Result<Table, Refusal> {
        Refusal::told(calls::check(words), 0)?;
        Ok(Table(words.to_vec()))
    }

    pub fn words(&self) -> &[u16] {
        &self.0
    }

    /// Refuses with 9 to 12.
    pub fn show(&self, value: &Value) -> Result<Shown, Refusal> {
        match *value {
            Value::Number { coefficient, scale } => self.show_number(coefficient, scale),
            Value::Instant { day, millisecond } => self.show_instant(day, millisecond),
            Value::Text(text) => self.show_text(text),
        }
    }

    /// Why a value is shown as it is, in a room that takes the text. Refuses as [`show`](Table::show) does.
    ///
    /// ```
    /// use numfmt::{Table, Value};
    ///
    /// let table = Table::prepare("[>100]0;0;@")?;
    /// let reason = table.why(&Value::Number { coefficient: -55, scale: 1 })?;
    /// assert_eq!((reason.section, reason.choice, reason.first), (1, 3, 1));
    /// assert_eq!((reason.minus, reason.cut), (0, 1));
    /// # Ok::<(), numfmt::Refusal>(())
    /// ```
    pub fn why(&self, value: &Value) -> Result<calls::Reason, Refusal> {
        let reason = match *value {
            Value::Number { coefficient, scale } => {
                calls::why_number(&self.0, coefficient, scale, usize::MAX)
            }
            Value::Instant { day, millisecond } => {
                calls::why_instant(&self.0, day, millisecond, usize::MAX)
            }
            Value::Text(text) => calls::why_text(&self.0, &units(text), usize::MAX),
        };
        Refusal::told(reason.answer, 0)?;
        Ok(reason)
    }

    /// Shows coefficient / 10^scale. Refuses with 9, 10, 11 or 12.
    pub fn show_number(&self, coefficient: i64, scale: u32) -> Result<Shown, Refusal> {
        in_room(|room| calls::show_number(&self.0, coefficient, scale, room))
    }

    /// Shows a day and a millisecond. Refuses with 9, 10 or 11.
    ///
    /// ```
    /// let table = numfmt::Table::prepare("dddd, d mmmm yyyy h:mm AM/PM")?;
    /// assert_eq!(table.show_instant(45579, 59_763_750)?.text, "Monday, 14 October 2024 4:36 PM");
    /// # Ok::<(), numfmt::Refusal>(())
    /// ```
    pub fn show_instant(&self, day: u32, millisecond: u32) -> Result<Shown, Refusal> {
        in_room(|room| calls::show_instant(&self.0, day, millisecond, room))
    }

    /// Shows a text. Refuses with 9.
    ///
    /// ```
    /// let table = numfmt::Table::prepare("\"now: \"@")?;
    /// assert_eq!(table.show_text("gates open")?.text, "now: gates open");
    /// # Ok::<(), numfmt::Refusal>(())
    /// ```
    pub fn show_text(&self, text: &str) -> Result<Shown, Refusal> {
        let text = units(text);
        in_room(|room| calls::show_text(&self.0, &text, room))
    }
}

/// Shows in a room that is made larger until the text fits; a room that is too short was left as it was.
pub(crate) fn in_room(mut show: impl FnMut(&mut [u16]) -> calls::Shown) -> Result<Shown, Refusal> {
    let mut room = vec![0; FIRST_ROOM];
    let mut shown = show(&mut room);
    while shown.answer == Answer::TextRoom.number() {
        room.resize(2 * room.len(), 0);
        shown = show(&mut room);
    }
    Refusal::told(shown.answer, 0)?;
    Ok(Shown {
        text: String::from_utf16_lossy(&room[..shown.length as usize]),
        colour: shown.colour,
        section: shown.section,
        exact: shown.exact == 1,
    })
}

/// Section n of a code, without semicolons. A missing section, and any of a refused code, is empty.
///
/// ```
/// let code = "0\" °C; \";[Red]-0;;@";
/// assert_eq!(numfmt::section(code, 0), "0\" °C; \"");
/// assert_eq!(numfmt::section(code, 1), "[Red]-0");
/// assert_eq!(numfmt::section(code, 2), "");
/// assert_eq!(numfmt::section("0;@;0", 0), "");
/// ```
pub fn section(code: &str, n: u32) -> &str {
    let part = calls::section(&units(code), n);
    let start = byte_of_unit(code, part.start as usize);
    let end = byte_of_unit(code, (part.start + part.length) as usize);
    &code[start..end]
}

/// The byte of a text at which the character begins that unit `unit` of its UTF-16 belongs to, as for the place of a refused
/// unit; the text's length where there is no such unit.
///
/// ```
/// let code = "\"£\"0 °C";
/// let refusal = numfmt::Table::prepare(code).unwrap_err();
/// assert!(code[numfmt::byte_of_unit(code, refusal.place as usize)..].starts_with('°'));
/// ```
pub fn byte_of_unit(text: &str, unit: usize) -> usize {
    let mut passed = 0;
    for (byte, character) in text.char_indices() {
        passed += character.len_utf16();
        if passed > unit {
            return byte;
        }
    }
    text.len()
}

pub(crate) fn units(text: &str) -> Vec<u16> {
    text.encode_utf16().collect()
}
