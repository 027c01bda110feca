//! The program as a person runs it.

mod list;
mod page;
mod plain;
mod statuses;
mod terminal;

use std::ffi::OsStr;
use std::path::PathBuf;
use std::process::{Command, Output};

/// Exit status, standard output and standard error.
type Run = (i32, String, String);

fn program() -> Command {
    let mut program = Command::new(env!("CARGO_BIN_EXE_preview"));
    program.env_remove("NO_COLOR");
    program
}

fn run<A: AsRef<OsStr>>(arguments: &[A]) -> Run {
    told(program().args(arguments).output())
}

fn told(output: std::io::Result<Output>) -> Run {
    let output = output.expect("the program runs");
    let text = |bytes| String::from_utf8(bytes).expect("UTF-8");
    let status = output.status.code().expect("an exit status");
    (status, text(output.stdout), text(output.stderr))
}

/// What is written on standard output, where nothing is refused.
fn shown<A: AsRef<OsStr>>(arguments: &[A]) -> String {
    let (status, out, err) = run(arguments);
    assert_eq!((status, err.as_str()), (0, ""), "{out}");
    out
}

/// The same where something is refused.
fn refused<A: AsRef<OsStr>>(arguments: &[A]) -> String {
    let (status, out, err) = run(arguments);
    assert_eq!((status, err.as_str()), (1, ""), "{out}");
    out
}

fn repository() -> PathBuf {
    PathBuf::from(concat!(env!("CARGO_MANIFEST_DIR"), "/../.."))
}
