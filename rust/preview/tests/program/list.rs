//! Lists of codes and values.

use std::fs;
use std::path::PathBuf;

use crate::run;

/// Previews a list that stands in a file of its own.
fn listed(name: &str, list: &[u8]) -> (i32, String) {
    let path = PathBuf::from(env!("CARGO_TARGET_TMPDIR")).join(name);
    fs::write(&path, list).expect("a scratch file");
    let (status, out, err) = run(&["--file".as_ref(), path.as_os_str()]);
    assert_eq!(err, "");
    (status, out)
}

#[test]
fn a_bad_line_does_not_stop_the_others() {
    let list = "#,##0\" salmon\"\t12408\t-3\n0\"£\tt\t3\n0\n@\tnumber\n0;d0\t1\nd-mmm\t2024-02-30\t2024-02-29\n0\t5\n";
    let report = "\
line 1: #,##0\" salmon\"
  12408  12,408 salmon
  -3     -3 salmon
line 2: 0\"£
         ^
  refused: A sign means nothing here, or a quote, bracket or run of letters is broken. (answer 2, place 1)
line 3: 0
  refused: The line has no value. A line is a code, a tab and a value.
line 4: @␉number
  refused: The line has no value. A line is a code, a tab and a value.
line 5: 0;d0
          ~~
  refused: The parts of this section do not go together. (answer 4, place 1)
line 6: d-mmm
  2024-02-30  refused: No day of the calendar, which goes from 1900-01-01 to 9999-12-31.
  2024-02-29  29-Feb
line 7: 0
  5  5
7 lines: 2 shown, 5 refused, 0 empty
";
    assert_eq!(
        listed("bad_lines", list.as_bytes()),
        (1, report.to_string())
    );
}

#[test]
fn line_ends_may_differ_and_lines_may_be_empty() {
    let report =
        "line 2: 0\n  5  5\nline 4: @\n  number  number\n4 lines: 2 shown, 0 refused, 2 empty\n";
    assert_eq!(
        listed("ends_lf", b"\n0\t5\n\n@\ttext\tnumber\n"),
        (0, report.to_string())
    );
    assert_eq!(
        listed("ends_crlf", b"\r\n0\t5\r\n\r\n@\ttext\tnumber\r\n"),
        (0, report.to_string())
    );
    assert_eq!(
        listed("ends_missing", b"\xef\xbb\xbf\n0\t5\n\n@\ttext\tnumber"),
        (0, report.to_string())
    );
    assert_eq!(
        listed("ends_all", b""),
        (0, "0 lines: 0 shown, 0 refused, 0 empty\n".to_string())
    );
}

#[test]
fn a_line_that_is_no_utf_8_is_told() {
    let report = "line 1: 0␉\u{fffd}\n  refused: The line is no UTF-8.\nline 2: 0\n  5  5\n2 lines: 1 shown, 1 refused, 0 empty\n";
    assert_eq!(
        listed("no_utf_8", b"0\t\xff\n0\t5\n"),
        (1, report.to_string())
    );
}

#[test]
fn an_empty_value_is_an_empty_text() {
    let report = "line 1: \"now: \"@\n    now: \n1 line: 1 shown, 0 refused, 0 empty\n";
    assert_eq!(
        listed("empty_value", b"\"now: \"@\t\n"),
        (0, report.to_string())
    );
}
