//! A code that arrives in parts.

use crate::{calls, Refusal, Table, TABLE_WORDS};

/// What has come of a code. Parts may be cut anywhere, also within a character: they are units. The end takes the stream, so that
/// nothing can be fed to it any more.
///
/// ```
/// use numfmt::{Answer, Stream, Table};
///
/// let mut stream = Stream::new();
/// for part in ["#,##", "0\" sal", "", "mon\""] {
///     stream.feed(part);
/// }
/// let table = stream.end()?;
/// assert_eq!(table, Table::prepare("#,##0\" salmon\"")?);
///
/// let mut stream = Stream::new();
/// for _ in 0..70_000 {
///     stream.feed("0");
/// }
/// assert_eq!(stream.end().unwrap_err().answer, Answer::CodeLength);
/// # Ok::<(), numfmt::Refusal>(())
/// ```
#[derive(Clone, Debug)]
pub struct Stream(calls::Stream);

impl Stream {
    /// Nothing has come yet.
    pub fn new() -> Stream {
        Stream(calls::stream_start())
    }

    /// A part comes.
    pub fn feed(&mut self, part: &str) {
        let units: Vec<u16> = part.encode_utf16().collect();
        self.feed_units(&units);
    }

    /// A part comes that is given as units, which may be any.
    pub fn feed_units(&mut self, part: &[u16]) {
        self.0 = calls::stream_feed(self.0, part).stream;
    }

    /// The table of the code that has come. Refuses with 1 to 6.
    pub fn end(self) -> Result<Table, Refusal> {
        let mut words = vec![0; TABLE_WORDS];
        let prepared = calls::stream_end(self.0, &mut words).prepared;
        Table::told(prepared, words)
    }
}

impl Default for Stream {
    fn default() -> Stream {
        Stream::new()
    }
}
