//! A list of codes and values, a line each.

use std::io::{self, Write};

use crate::arguments::Request;
use crate::columns::visible;
use crate::page::Page;

const BYTE_ORDER_MARK: &[u8] = b"\xef\xbb\xbf";

/// Reports every line with its number, and then how many were shown, refused and empty. Tells whether one was refused.
pub fn write(list: &[u8], page: &mut Page<impl Write>) -> io::Result<bool> {
    let (mut shown, mut refused, mut empty) = (0, 0, 0);
    for (number, line) in (1..).zip(lines(list)) {
        if line.is_empty() {
            empty += 1;
        } else if write_line(&format!("line {number}: "), line, page)? {
            refused += 1;
        } else {
            shown += 1;
        }
    }
    let all = shown + refused + empty;
    let lines = if all == 1 { "line" } else { "lines" };
    writeln!(
        page.out,
        "{all} {lines}: {shown} shown, {refused} refused, {empty} empty"
    )?;
    Ok(refused > 0)
}

/// The lines without their ends, which are LF or CR LF; the last need not have one.
fn lines(list: &[u8]) -> impl Iterator<Item = &[u8]> {
    let list = list.strip_prefix(BYTE_ORDER_MARK).unwrap_or(list);
    list.split_inclusive(|byte| *byte == b'\n').map(|line| {
        let line = line.strip_suffix(b"\n").unwrap_or(line);
        line.strip_suffix(b"\r").unwrap_or(line)
    })
}

fn write_line(lead: &str, line: &[u8], page: &mut Page<impl Write>) -> io::Result<bool> {
    match request(line) {
        Ok(request) => page.write_line(lead, &request),
        Err(reason) => {
            let line = visible(&String::from_utf8_lossy(line));
            writeln!(page.out, "{lead}{line}\n  refused: {reason}")?;
            Ok(true)
        }
    }
}

fn request(line: &[u8]) -> Result<Request, &'static str> {
    let line = std::str::from_utf8(line).map_err(|_| "The line is no UTF-8.")?;
    let words: Vec<&str> = line.split('\t').collect();
    Request::from_words(&words)
        .map_err(|_| "The line has no value. A line is a code, a tab and a value.")
}
