//! The calls of include/numfmt.h on lent slices, with the numbers that they return. Nothing is allocated.
//!
//! A slice keeps every duty that the header lays on a caller: its pointer is valid for its length, aligned and never null
//! (that of an empty slice is dangling, which the header allows), and a slice lent for writing overlaps no other. All else is
//! checked by the library: any units may be lent as a code, a table or a text.
//!
//! ```
//! use numfmt::{calls, TABLE_WORDS};
//!
//! let code: Vec<u16> = "#,##0".encode_utf16().collect();
//! let (mut table, mut room) = ([0; TABLE_WORDS], [0; 8]);
//! let prepared = calls::prepare(&code, &mut table);
//! assert_eq!((prepared.answer, prepared.place), (0, 0));
//!
//! let table = &table[..prepared.words as usize];
//! let shown = calls::show_number(table, 12000, 0, &mut room);
//! assert_eq!(String::from_utf16_lossy(&room[..shown.length as usize]), "12,000");
//! assert_eq!(shown.exact, 1);
//! assert_eq!(calls::show_number(table, 120004, 1, &mut room).exact, 0);
//!
//! // A room that is too short is refused, and keeps its contents.
//! let mut short = [7; 5];
//! assert_eq!(calls::show_number(table, 12000, 0, &mut short).answer, 13);
//! assert_eq!(short, [7; 5]);
//! ```

use crate::{BOARD_ROWS, CODE_MOST};

/// What preparing returns. On a refusal `words` is 0; `place` is 0 but for answers 2 to 6.
#[repr(C)]
#[derive(Clone, Copy, Debug, PartialEq, Eq)]
pub struct Prepared {
    pub answer: u16,
    pub place: u32,
    pub words: u32,
}

/// What showing returns. On a refusal every number but the answer is 0.
#[repr(C)]
#[derive(Clone, Copy, Debug, PartialEq, Eq)]
pub struct Shown {
    pub answer: u16,
    pub length: u32,
    pub colour: u16,
    pub section: u16,
    /// 1 where the text tells the value exactly, 0 where it was rounded or cut.
    pub exact: u16,
}

/// Why a value is shown as it is, with the numbers of include/numfmt.h. On a refusal every number but the answer is 0.
#[repr(C)]
#[derive(Clone, Copy, Debug, PartialEq, Eq)]
pub struct Reason {
    pub answer: u16,
    pub section: u16,
    /// 0 by its own condition, 1 to 7 by a fallback, 8 and 9 for a text.
    pub choice: u16,
    /// Of sections 0 and 1, where they stand before the one chosen: 1 its own condition is false, 2 its fallback is.
    pub first: u16,
    pub second: u16,
    /// 0 added, 1 to 5 what held it back.
    pub minus: u16,
    /// How many decimals were cut.
    pub cut: u16,
}

/// The rows of a wall: each empty, with 0 in `filled`, `length` and `colour`, or filled, with the length and colour last shown there.
/// `widest` is the greatest length of the filled rows, and 0 where there is none. Any numbers may stand in a board that is lent.
#[repr(C)]
#[derive(Clone, Copy, Debug, PartialEq, Eq)]
pub struct Board {
    pub filled: [u8; BOARD_ROWS],
    pub length: [u32; BOARD_ROWS],
    pub colour: [u16; BOARD_ROWS],
    pub widest: u32,
}

/// What putting a row hands back. On a refusal the board is the one that was lent.
#[repr(C)]
#[derive(Clone, Copy, Debug, PartialEq, Eq)]
pub struct Put {
    pub board: Board,
    pub shown: Shown,
}

/// What clearing a row hands back.
#[repr(C)]
#[derive(Clone, Copy, Debug, PartialEq, Eq)]
pub struct Cleared {
    pub board: Board,
    pub answer: u16,
}

/// A code that arrives in parts: `count` units have come, of which `units` begins with the first 254; more are counted as 255.
/// `ended` is 0 until the end. Any numbers may be in it.
#[repr(C)]
#[derive(Clone, Copy, Debug, PartialEq, Eq)]
pub struct Stream {
    pub units: [u16; CODE_MOST],
    pub count: u16,
    pub ended: u16,
}

/// What feeding a stream returns.
#[repr(C)]
#[derive(Clone, Copy, Debug, PartialEq, Eq)]
pub struct Fed {
    pub stream: Stream,
    pub answer: u16,
    pub place: u32,
}

/// What ending a stream returns.
#[repr(C)]
#[derive(Clone, Copy, Debug, PartialEq, Eq)]
pub struct Finished {
    pub stream: Stream,
    pub prepared: Prepared,
}

/// A part of a code: `length` units from unit `start` on.
#[repr(C)]
#[derive(Clone, Copy, Debug, PartialEq, Eq)]
pub struct Part {
    pub start: u32,
    pub length: u32,
}

unsafe extern "C" {
    fn numfmt_prepare(
        code: *const u16,
        code_len: usize,
        table: *mut u16,
        table_len: usize,
    ) -> Prepared;
    fn numfmt_stream_start() -> Stream;
    fn numfmt_stream_feed(stream: Stream, part: *const u16, part_len: usize) -> Fed;
    fn numfmt_stream_end(stream: Stream, table: *mut u16, table_len: usize) -> Finished;
    fn numfmt_section(code: *const u16, code_len: usize, n: u32) -> Part;
    fn numfmt_check(table: *const u16, table_len: usize) -> u16;
    fn numfmt_show_number(
        table: *const u16,
        table_len: usize,
        coefficient: i64,
        scale: u32,
        room: *mut u16,
        room_len: usize,
    ) -> Shown;
    fn numfmt_show_instant(
        table: *const u16,
        table_len: usize,
        day: u32,
        millisecond: u32,
        room: *mut u16,
        room_len: usize,
    ) -> Shown;
    fn numfmt_show_text(
        table: *const u16,
        table_len: usize,
        text: *const u16,
        text_len: usize,
        room: *mut u16,
        room_len: usize,
    ) -> Shown;
    fn numfmt_why_number(
        table: *const u16,
        table_len: usize,
        coefficient: i64,
        scale: u32,
        room_len: usize,
    ) -> Reason;
    fn numfmt_why_instant(
        table: *const u16,
        table_len: usize,
        day: u32,
        millisecond: u32,
        room_len: usize,
    ) -> Reason;
    fn numfmt_why_text(
        table: *const u16,
        table_len: usize,
        text: *const u16,
        text_len: usize,
        room_len: usize,
    ) -> Reason;
    fn numfmt_board_empty() -> Board;
    fn numfmt_board_put_number(
        board: Board,
        row: u32,
        table: *const u16,
        table_len: usize,
        coefficient: i64,
        scale: u32,
        room: *mut u16,
        room_len: usize,
    ) -> Put;
    fn numfmt_board_put_instant(
        board: Board,
        row: u32,
        table: *const u16,
        table_len: usize,
        day: u32,
        millisecond: u32,
        room: *mut u16,
        room_len: usize,
    ) -> Put;
    fn numfmt_board_put_text(
        board: Board,
        row: u32,
        table: *const u16,
        table_len: usize,
        text: *const u16,
        text_len: usize,
        room: *mut u16,
        room_len: usize,
    ) -> Put;
    fn numfmt_board_clear(board: Board, row: u32) -> Cleared;
}

/// Writes the table of a code in front of the table room. A room of [`TABLE_WORDS`](crate::TABLE_WORDS) holds every table.
pub fn prepare(code: &[u16], table: &mut [u16]) -> Prepared {
    // SAFETY: each pointer is a slice's, with its length; the slice that is written overlaps no other.
    unsafe { numfmt_prepare(code.as_ptr(), code.len(), table.as_mut_ptr(), table.len()) }
}

/// A stream to which nothing has come.
///
/// ```
/// use numfmt::calls;
///
/// let mut table = [0; 16];
/// let mut stream = calls::stream_start();
/// for part in [[35, 44, 35].as_slice(), &[35, 48]] {
///     stream = calls::stream_feed(stream, part).stream;
/// }
/// let finished = calls::stream_end(stream, &mut table);
/// assert_eq!(finished.prepared.answer, 7);
/// assert_eq!(calls::stream_feed(finished.stream, &[48]).answer, 15);
/// ```
pub fn stream_start() -> Stream {
    // SAFETY: nothing is lent.
    unsafe { numfmt_stream_start() }
}

/// The stream with a part of a code behind what has come: answer 0 however long the code grows, 15 after the end.
pub fn stream_feed(stream: Stream, part: &[u16]) -> Fed {
    // SAFETY: the pointer is a slice's, with its length; nothing is written.
    unsafe { numfmt_stream_feed(stream, part.as_ptr(), part.len()) }
}

/// Ends a stream, and prepares the joined code as [`prepare`] does; 15 where it has ended before.
pub fn stream_end(stream: Stream, table: &mut [u16]) -> Finished {
    // SAFETY: the pointer is a slice's, with its length.
    unsafe { numfmt_stream_end(stream, table.as_mut_ptr(), table.len()) }
}

/// Answer 0 for words that keep the table rules, 8 for others.
///
/// ```
/// use numfmt::calls;
///
/// let mut words = [1, 2, 0, 0, 0, 0, 0, 0, 0, 15, 0, 0, 1, 4, 16];
/// assert_eq!(calls::check(&words), 0);
/// assert_eq!(calls::check(&words[..14]), 8);
/// words[14] = 17;
/// assert_eq!(calls::check(&words), 8);
/// ```
pub fn check(table: &[u16]) -> u16 {
    // SAFETY: the pointer is a slice's, with its length; nothing is written.
    unsafe { numfmt_check(table.as_ptr(), table.len()) }
}

/// Where section n of a code stands, without semicolons; `0, 0` for a missing section and for a refused code.
pub fn section(code: &[u16], n: u32) -> Part {
    // SAFETY: the pointer is a slice's, with its length; nothing is written.
    unsafe { numfmt_section(code.as_ptr(), code.len(), n) }
}

/// Shows the number coefficient / 10^scale.
pub fn show_number(table: &[u16], coefficient: i64, scale: u32, room: &mut [u16]) -> Shown {
    let (room, units) = (room.as_mut_ptr(), room.len());
    // SAFETY: each pointer is a slice's, with its length; the slice that is written overlaps no other.
    unsafe { numfmt_show_number(table.as_ptr(), table.len(), coefficient, scale, room, units) }
}

/// Shows an instant: a day number (day 1 is 1 January 1900) and a millisecond of the day.
pub fn show_instant(table: &[u16], day: u32, millisecond: u32, room: &mut [u16]) -> Shown {
    let (room, units) = (room.as_mut_ptr(), room.len());
    // SAFETY: each pointer is a slice's, with its length; the slice that is written overlaps no other.
    unsafe { numfmt_show_instant(table.as_ptr(), table.len(), day, millisecond, room, units) }
}

/// Shows a text.
pub fn show_text(table: &[u16], text: &[u16], room: &mut [u16]) -> Shown {
    let (room, units) = (room.as_mut_ptr(), room.len());
    // SAFETY: each pointer is a slice's, with its length; the slice that is written overlaps no other.
    unsafe {
        numfmt_show_text(
            table.as_ptr(),
            table.len(),
            text.as_ptr(),
            text.len(),
            room,
            units,
        )
    }
}

/// Why a number is shown as it is in a room of so many units.
///
/// ```
/// use numfmt::calls;
///
/// let table = [1, 2, 0, 0, 0, 0, 0, 0, 0, 15, 0, 0, 1, 4, 16];
/// let reason = calls::why_number(&table, -1250, 2, 8);
/// assert_eq!((reason.answer, reason.section, reason.choice), (0, 0, 1));
/// assert_eq!((reason.minus, reason.cut), (0, 1));
/// ```
pub fn why_number(table: &[u16], coefficient: i64, scale: u32, room_len: usize) -> Reason {
    // SAFETY: the pointer is a slice's, with its length; nothing is written.
    unsafe { numfmt_why_number(table.as_ptr(), table.len(), coefficient, scale, room_len) }
}

/// Why an instant is shown as it is in a room of so many units.
pub fn why_instant(table: &[u16], day: u32, millisecond: u32, room_len: usize) -> Reason {
    // SAFETY: the pointer is a slice's, with its length; nothing is written.
    unsafe { numfmt_why_instant(table.as_ptr(), table.len(), day, millisecond, room_len) }
}

/// Why a text is shown as it is in a room of so many units.
pub fn why_text(table: &[u16], text: &[u16], room_len: usize) -> Reason {
    // SAFETY: each pointer is a slice's, with its length; nothing is written.
    unsafe {
        numfmt_why_text(
            table.as_ptr(),
            table.len(),
            text.as_ptr(),
            text.len(),
            room_len,
        )
    }
}

/// A board whose rows are all empty.
pub fn board_empty() -> Board {
    // SAFETY: nothing is lent.
    unsafe { numfmt_board_empty() }
}

/// Shows a number and puts its length and colour into the row. A row of 64 or above is answered 16, before all else.
///
/// ```
/// use numfmt::calls;
///
/// let zero = [1, 2, 0, 0, 0, 0, 0, 0, 0, 15, 0, 0, 1, 4, 16];
/// let mut room = [0; 8];
/// let put = calls::board_put_number(calls::board_empty(), 3, &zero, 1200, 0, &mut room);
/// assert_eq!((put.shown.answer, put.board.length[3], put.board.widest), (0, 4, 4));
/// let refused = calls::board_put_number(put.board, 64, &[], 1, 0, &mut room);
/// assert_eq!((refused.shown.answer, refused.board), (16, put.board));
/// assert_eq!(calls::board_clear(put.board, 3).board, calls::board_empty());
/// ```
pub fn board_put_number(
    board: Board,
    row: u32,
    table: &[u16],
    coefficient: i64,
    scale: u32,
    room: &mut [u16],
) -> Put {
    let (words, room, units) = (table.len(), room.as_mut_ptr(), room.len());
    // SAFETY: each pointer is a slice's, with its length; the slice that is written overlaps no other.
    unsafe {
        numfmt_board_put_number(
            board,
            row,
            table.as_ptr(),
            words,
            coefficient,
            scale,
            room,
            units,
        )
    }
}

/// The same for an instant.
pub fn board_put_instant(
    board: Board,
    row: u32,
    table: &[u16],
    day: u32,
    millisecond: u32,
    room: &mut [u16],
) -> Put {
    let (words, room, units) = (table.len(), room.as_mut_ptr(), room.len());
    // SAFETY: each pointer is a slice's, with its length; the slice that is written overlaps no other.
    unsafe {
        numfmt_board_put_instant(
            board,
            row,
            table.as_ptr(),
            words,
            day,
            millisecond,
            room,
            units,
        )
    }
}

/// The same for a text.
pub fn board_put_text(
    board: Board,
    row: u32,
    table: &[u16],
    text: &[u16],
    room: &mut [u16],
) -> Put {
    let (room, units) = (room.as_mut_ptr(), room.len());
    // SAFETY: each pointer is a slice's, with its length; the slice that is written overlaps no other.
    unsafe {
        numfmt_board_put_text(
            board,
            row,
            table.as_ptr(),
            table.len(),
            text.as_ptr(),
            text.len(),
            room,
            units,
        )
    }
}

/// Empties a row. A row of 64 or above is answered 16.
pub fn board_clear(board: Board, row: u32) -> Cleared {
    // SAFETY: nothing is lent by pointer.
    unsafe { numfmt_board_clear(board, row) }
}
