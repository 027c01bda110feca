//! Five lines a value, as the program `show` prints them.

use std::fs;
use std::io::Write;
use std::process::{Command, Stdio};

use crate::{refused, repository, run, shown};

fn list(name: &str) -> String {
    fs::read_to_string(repository().join("crates/vectors").join(name)).expect("a list")
}

/// Code, kind and value of three lines of ASCII; none where the kind is none.
fn request<'a>(lines: &[&'a str]) -> Option<[&'a str; 3]> {
    let kind = lines[1].strip_prefix("kind=")?;
    let request = [
        lines[0].strip_prefix("code=")?,
        kind,
        lines[2].strip_prefix("value=")?,
    ];
    let named = ["number", "instant", "text"].contains(&kind);
    (named && lines.concat().is_ascii()).then_some(request)
}

/// Those of the program `vectors`, which tells the section too, in a sixth line. The last has no line end, which no argument can
/// lack.
#[test]
fn known_requests_get_their_known_lines() {
    let (asked, told) = (list("stdin"), list("stdout"));
    let asked: Vec<&str> = asked
        .split_inclusive('\n')
        .filter_map(|line| line.strip_suffix('\n'))
        .collect();
    let told: Vec<&str> = told.lines().collect();
    let mut compared = 0;
    for (lines, answer) in asked.chunks_exact(3).zip(told.chunks(6)) {
        let Some([code, kind, value]) = request(lines) else {
            continue;
        };
        let (status, out, _) = run(&["--plain", "--", code, kind, value]);
        assert_eq!(out, answer[..5].join("\n") + "\n", "{code} {kind} {value}");
        assert_eq!(
            status == 0,
            answer[0] == "answer=0",
            "{code} {kind} {value}"
        );
        compared += 1;
    }
    assert!(compared > 1000, "{compared}");
}

/// What target/bin/show writes for the three lines.
fn reference(code: &str, kind: &str, value: &str) -> String {
    let show = repository().join("target/bin/show");
    let mut show = Command::new(show)
        .stdin(Stdio::piped())
        .stdout(Stdio::piped())
        .spawn()
        .expect("target/bin/show, which `tools/program show` makes");
    let input = format!("code={code}\nkind={kind}\nvalue={value}\n");
    let mut stdin = show.stdin.take().expect("its input");
    // It reads no more than it has to, so that the rest of a long input may find no reader.
    let _ = stdin.write_all(input.as_bytes());
    drop(stdin);
    String::from_utf8(show.wait_with_output().expect("its output").stdout).expect("ASCII")
}

const CODES: &str = "0||@|\"a\nb\"0|0\nkind=number\nvalue=3\n|0\t|\x01|[>5]0;@|@@@@@|#,##0.00";

const VALUES: &str = "3||-|-0|-0.3|.5|5.|+5|1,000|1e5| 5|5 |3\n|a\nb|00000000000000000007|999999999999999|1000000000000000|\
    -99999999999999999999|0.000000000000001|0.0000000000000001|1/2|1/|/2|-1/0|1/2/3|2958465/86399999|2958466/0|0/86400000|\
    4294967296/0|2024-10-14|\x7f\x1b";

/// The parts of a list, and runs of a sign of these lengths.
fn parts_and_runs(list: &str, sign: &str, lengths: &[usize]) -> Vec<String> {
    let runs = lengths.iter().map(|length| sign.repeat(*length));
    list.split('|').map(str::to_string).chain(runs).collect()
}

#[test]
fn odd_requests_get_what_show_writes() {
    let values = parts_and_runs(VALUES, "x", &[820, 1024, 1025, 2042, 2043]);
    for code in &parts_and_runs(CODES, "0", &[254, 255, 2043, 2044]) {
        for kind in ["number", "instant", "text"] {
            for value in &values {
                let (_, out, _) = run(&["--plain", code, kind, value]);
                let told = reference(code, kind, value);
                assert_eq!(out, told, "{code:?} {kind} {value:?}");
            }
        }
    }
}

#[test]
fn utf_8_is_taken_too() {
    assert_eq!(
        shown(&["--plain", "0.0\" °C\"", "number", "11.25"]),
        "answer=0\nplace=0\ncolour=0\nexact=0\ntext=11.3 °C\n"
    );
    assert_eq!(
        refused(&["--plain", "0°", "number", "1"]),
        "answer=2\nplace=1\ncolour=0\nexact=0\ntext=\n"
    );
    let text = "é".repeat(1024);
    assert_eq!(
        shown(&["--plain", "@", "text", &text]),
        format!("answer=0\nplace=0\ncolour=0\nexact=1\ntext={text}\n")
    );
}

#[test]
fn values_without_a_kind_have_five_lines_each() {
    let lines = "\
answer=0
place=0
colour=3
exact=1
text=14
answer=14
place=3
colour=0
exact=0
text=
answer=0
place=0
colour=0
exact=1
text=café
";
    assert_eq!(
        refused(&["--plain", "[Red]d", "2024-10-14", ".5", "café"]),
        lines
    );
}
