//! Rows for people: a value, the text shown for it, and notes; or a refusal in words.

use std::io::{self, Write};

use numfmt::{Refusal, Shown, Table};

use crate::arguments::Request;
use crate::colours;
use crate::columns::{visible, width};
use crate::marks::mark;
use crate::value::{self, Kind};
use crate::why::sentence;

/// The section that is told for a text which no section shows.
const NO_SECTION: u16 = 4;

/// Where rows go. What writes tells whether something was refused.
pub struct Page<W> {
    pub out: W,
    pub coloured: bool,
}

impl<W: Write> Page<W> {
    /// A row for each value, with its reason below it where `why` is told, or why the code is refused.
    pub fn write(&mut self, request: &Request, why: bool) -> io::Result<bool> {
        let table = Table::prepare(&request.code);
        if let Err(refusal) = &table {
            if mark(&request.code, refusal).is_some() {
                writeln!(self.out, "{}", visible(&request.code))?;
            }
        }
        self.write_below("", "", request, table, why)
    }

    /// The same for a line of a list, which begins with `lead` and its code.
    pub fn write_line(&mut self, lead: &str, request: &Request) -> io::Result<bool> {
        writeln!(self.out, "{lead}{}", visible(&request.code))?;
        self.write_below(lead, "  ", request, Table::prepare(&request.code), false)
    }

    /// What stands below the code, which stands behind `lead`.
    fn write_below(
        &mut self,
        lead: &str,
        margin: &str,
        request: &Request,
        table: Result<Table, Refusal>,
        why: bool,
    ) -> io::Result<bool> {
        let refusal = match table {
            Ok(table) => return self.write_rows(margin, &table, request, why),
            Err(refusal) => refusal,
        };
        if let Some(mark) = mark(&request.code, &refusal) {
            writeln!(self.out, "{}{mark}", " ".repeat(width(lead)))?;
        }
        writeln!(self.out, "{margin}refused: {refusal}")?;
        Ok(true)
    }

    fn write_rows(
        &mut self,
        margin: &str,
        table: &Table,
        request: &Request,
        why: bool,
    ) -> io::Result<bool> {
        let labels: Vec<String> = request.values.iter().map(|value| visible(value)).collect();
        let widest = labels.iter().map(|label| width(label)).max().unwrap_or(0);
        let mut refused = false;
        for (written, label) in request.values.iter().zip(&labels) {
            let shown = show(table, request.kind, written);
            refused |= shown.is_err();
            let row = shown.map_or_else(
                |reason| format!("refused: {reason}"),
                |shown| row(&shown, self.coloured),
            );
            let gap = " ".repeat(widest - width(label) + 2);
            writeln!(self.out, "{margin}{label}{gap}{row}")?;
            if let Some(sentence) = why.then(|| reason(table, request, written)).flatten() {
                let below = " ".repeat(widest + 2);
                writeln!(self.out, "{margin}{below}{}", visible(&sentence))?;
            }
        }
        Ok(refused)
    }
}

fn show(table: &Table, kind: Option<Kind>, written: &str) -> Result<Shown, String> {
    let value = value::read(kind, written).map_err(|misread| misread.text().to_string())?;
    table.show(&value).map_err(|refusal| refusal.to_string())
}

/// Nothing where the show is refused.
fn reason(table: &Table, request: &Request, written: &str) -> Option<String> {
    let value = value::read(request.kind, written).ok()?;
    let reason = table.why(&value).ok()?;
    Some(sentence(&request.code, table, &reason))
}

fn row(shown: &Shown, coloured: bool) -> String {
    let text = visible(&shown.text);
    let painted = if coloured {
        colours::painted(shown.colour, &text)
    } else {
        text
    };
    let notes = notes(shown);
    match (shown.text.is_empty(), notes.is_empty()) {
        (true, _) => format!("[{notes}]"),
        (false, true) => painted,
        (false, false) => format!("{painted}  [{notes}]"),
    }
}

fn notes(shown: &Shown) -> String {
    let mut notes = Vec::new();
    if shown.text.is_empty() {
        notes.push("nothing".to_string());
    }
    if let Some(name) = colours::name(shown.colour) {
        notes.push(format!("in {name}"));
    }
    if shown.section == NO_SECTION {
        notes.push("as it is".to_string());
    }
    if !shown.exact {
        notes.push("about".to_string());
    }
    notes.join(", ")
}
