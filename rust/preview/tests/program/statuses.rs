//! Exit statuses: 0 and 1 beside the rows, 2 for a command that is not understood, 3 for output that can't be written.

use std::ffi::OsStr;
use std::fs::OpenOptions;
use std::io::pipe;
use std::os::unix::ffi::OsStrExt;
use std::process::Stdio;

use crate::{program, run, shown, told, Run};

/// Nothing on standard output, and on standard error what is wrong.
fn misused<A: AsRef<OsStr>>(arguments: &[A], what: &str) {
    let (status, out, err) = run(arguments);
    assert_eq!((status, out.as_str()), (2, ""), "{err}");
    assert!(err.starts_with(&format!("preview: {what}")), "{err}");
}

#[test]
fn a_command_that_is_not_understood_gives_2() {
    misused::<&str>(&[], "a code is missing\nusage: ");
    misused(&["0"], "a value is missing behind the code\nusage: ");
    misused(
        &["0", "number"],
        "a value is missing behind the code\nusage: ",
    );
    misused(&["--plain"], "a code is missing");
    misused(&["--plain", "0"], "a value is missing");
    misused(&["--plian", "0", "5"], "--plian can't stand here");
    misused(&["--plain", "--file", "x"], "--file can't stand here");
    misused(
        &["--file"],
        "--file takes the name of a list, and nothing else",
    );
    misused(
        &["--file", "a", "b"],
        "--file takes the name of a list, and nothing else",
    );
}

#[test]
fn a_list_that_cant_be_read_gives_2() {
    misused(&["--file", "/nowhere/list"], "can't read /nowhere/list: ");
    misused(&["--file", "/"], "can't read /: ");
}

#[test]
fn an_argument_that_is_no_utf_8_gives_2() {
    let argument = OsStr::from_bytes(b"caf\xe9");
    misused(&["@".as_ref(), argument], "argument 2 is no UTF-8\n");
    misused(&[argument, "5".as_ref()], "argument 1 is no UTF-8\n");
}

#[test]
fn help_gives_0() {
    let help = shown(&["--help"]);
    assert!(help.starts_with("usage: ./preview "));
    for line in help.lines() {
        assert!(line.len() <= 130, "{line}");
    }
}

/// The commands that write, each to the output.
fn written_to(output: impl Fn() -> Stdio) -> Vec<Run> {
    let commands: [&[&str]; 5] = [
        &["0", "5"],
        &["0\"", "5"],
        &["--plain", "0", "5"],
        &["--file", "/dev/null"],
        &["--help"],
    ];
    let run = |command: &&[&str]| told(program().args(*command).stdout(output()).output());
    commands.iter().map(run).collect()
}

#[test]
fn a_full_device_gives_3() {
    let full = || {
        OpenOptions::new()
            .write(true)
            .open("/dev/full")
            .expect("a full device")
            .into()
    };
    for (status, _, err) in written_to(full) {
        assert_eq!(status, 3);
        assert!(err.starts_with("preview: can't write: "), "{err}");
    }
}

#[test]
fn a_closed_pipe_gives_3() {
    let closed = || pipe().expect("a pipe").1.into();
    for (status, _, err) in written_to(closed) {
        assert_eq!(status, 3);
        assert!(err.starts_with("preview: can't write: "), "{err}");
    }
}

#[test]
fn a_standard_error_that_cant_be_written_changes_no_status() {
    let full = OpenOptions::new()
        .write(true)
        .open("/dev/full")
        .expect("a full device");
    assert_eq!(told(program().stderr(full).output()).0, 2);
}
