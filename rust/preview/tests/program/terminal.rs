//! Colours on a terminal.

use std::process::{Command, Stdio};

/// Runs the program with a terminal as its standard output, and gives what the terminal gets.
const ON_A_TERMINAL: &str = "import pty, sys; sys.exit(pty.spawn(sys.argv[1:]) >> 8)";

fn on_a_terminal(no_color: Option<&str>, arguments: &[&str]) -> String {
    let mut python = Command::new("python3");
    python
        .args(["-c", ON_A_TERMINAL, env!("CARGO_BIN_EXE_preview")])
        .args(arguments)
        .stdin(Stdio::null());
    match no_color {
        Some(value) => python.env("NO_COLOR", value),
        None => python.env_remove("NO_COLOR"),
    };
    let output = python.output().expect("python3 runs");
    String::from_utf8(output.stdout)
        .expect("UTF-8")
        .replace("\r\n", "\n")
}

#[test]
fn colours_are_painted_on_a_terminal() {
    let red = "-5  \x1b[31m-5\x1b[0m  [in red]\n5   5\n";
    assert_eq!(on_a_terminal(None, &["0;[Red]-0", "-5", "5"]), red);
    assert_eq!(on_a_terminal(Some(""), &["0;[Red]-0", "-5", "5"]), red);
    assert_eq!(
        on_a_terminal(None, &["[Color46]0", "5"]),
        "5  \x1b[38;2;255;102;0m5\x1b[0m  [in colour 46]\n"
    );
}

#[test]
fn no_color_and_plain_paint_nothing() {
    assert_eq!(
        on_a_terminal(Some("1"), &["0;[Red]-0", "-5"]),
        "-5  -5  [in red]\n"
    );
    assert_eq!(
        on_a_terminal(None, &["--plain", "[Red]0", "5"]),
        "answer=0\nplace=0\ncolour=3\nexact=1\ntext=5\n"
    );
}
