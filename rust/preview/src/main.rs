//! Shows values through number format codes, for people. arguments.rs has the usage.

mod arguments;
mod colours;
mod columns;
mod list;
mod marks;
mod page;
mod plain;
mod value;
mod why;

use std::ffi::OsStr;
use std::io::{self, BufWriter, IsTerminal, Write};
use std::process::ExitCode;

use arguments::{Asked, HELP, USAGE};
use page::Page;

const REFUSED: u8 = 1;
const MISUSED: u8 = 2;
const UNWRITTEN: u8 = 3;

fn main() -> ExitCode {
    let asked = match arguments::read(std::env::args_os().skip(1)) {
        Ok(asked) => asked,
        Err(message) => return fail(MISUSED, &message),
    };
    let mut out = BufWriter::new(io::stdout().lock());
    let written = write(&asked, &mut out).and_then(|refused| out.flush().map(|()| refused));
    match written {
        Ok(refused) => ExitCode::from(if refused { REFUSED } else { 0 }),
        Err(error) => fail(UNWRITTEN, &format!("can't write: {error}\n")),
    }
}

/// Writes what was asked for, and tells whether something was refused.
fn write(asked: &Asked, out: &mut impl Write) -> io::Result<bool> {
    let no_color = std::env::var_os("NO_COLOR");
    let mut page = Page {
        coloured: coloured(io::stdout().is_terminal(), no_color.as_deref()),
        out,
    };
    match asked {
        Asked::Help => write!(page.out, "{USAGE}{HELP}").map(|()| false),
        Asked::Plain(request) => plain::write(request, page.out),
        Asked::Page(request) => page.write(request, false),
        Asked::Why(request) => page.write(request, true),
        Asked::List(list) => list::write(list, &mut page),
    }
}

fn coloured(terminal: bool, no_color: Option<&OsStr>) -> bool {
    terminal && no_color.is_none_or(OsStr::is_empty)
}

/// A standard error that can't be written either changes nothing.
fn fail(status: u8, message: &str) -> ExitCode {
    let _ = write!(io::stderr(), "preview: {message}");
    ExitCode::from(status)
}
