//! Rows and refusals.

use crate::{refused, shown};

const TOKEN: &str = "refused: A sign means nothing here, or a quote, bracket or run of letters is broken. (answer 2, place";
const NUMBER: &str = "refused: No number. A number is an optional minus, digits, and optionally a point and digits, as 1000 or -0.5.";

#[test]
fn utf_8_goes_in_and_comes_out() {
    assert_eq!(shown(&["0.0\" °C\"", "11.5"]), "11.5  11.5 °C\n");
    assert_eq!(shown(&["\"£\"0", "5"]), "5  £5\n");
    assert_eq!(shown(&["\"🐟 \"@", "café"]), "café  🐟 café\n");
}

#[test]
fn each_value_has_a_row() {
    let rows = "12000     12,000.00\n-1234.56  (1,234.56)  [in red]\n鮭        鮭  [as it is]\n";
    assert_eq!(
        shown(&["#,##0.00;[Red](#,##0.00)", "12000", "-1234.56", "鮭"]),
        rows
    );
}

#[test]
fn notes_tell_colours_and_empty_texts() {
    assert_eq!(shown(&["[Color9]0", "5"]), "5  5  [in colour 9]\n");
    assert_eq!(shown(&["0;;", "-5"]), "-5  [nothing]\n");
    assert_eq!(shown(&["0;[Blue];", "-5"]), "-5  [nothing, in blue]\n");
}

#[test]
fn what_was_rounded_or_cut_is_told() {
    let rows = "11.3   11.3 °C\n11.25  11.3 °C  [about]\n-0.01  0.0 °C  [about]\n";
    assert_eq!(shown(&["0.0\" °C\"", "11.3", "11.25", "-0.01"]), rows);
    let rows = "3.5  3 1/2\n3.6  3 3/5\n3.7  3 5/7  [about]\n";
    assert_eq!(shown(&["# ?/?", "3.5", "3.6", "3.7"]), rows);
    let rows = "2024-10-14 16:00     16\n2024-10-14 16:00:01  16  [about]\n";
    assert_eq!(
        shown(&["h", "2024-10-14 16:00", "2024-10-14 16:00:01"]),
        rows
    );
    assert_eq!(shown(&["0;[Red]0", "-0.4"]), "-0.4  0  [in red, about]\n");
    assert_eq!(shown(&["#", "0.4"]), "0.4  [nothing, about]\n");
}

#[test]
fn a_kind_may_be_named() {
    assert_eq!(
        shown(&["h:mm AM/PM", "2024-10-14 16:36"]),
        "2024-10-14 16:36  4:36 PM\n"
    );
    assert_eq!(
        shown(&["h:mm AM/PM", "instant", "45579/59760000"]),
        "45579/59760000  4:36 PM\n"
    );
    assert_eq!(
        shown(&["\"to \"@", "text", "5", "text"]),
        "5     to 5\ntext  to text\n"
    );
    let out = refused(&["d", "instant", "14 October"]);
    assert!(
        out.starts_with("14 October  refused: No instant. An instant is 2024-10-14, "),
        "{out}"
    );
}

#[test]
fn what_a_number_looks_like_is_said() {
    for written in [".5", "1,000", "+5"] {
        assert_eq!(
            refused(&["0", "number", written]),
            format!("{written}  {NUMBER}\n")
        );
        assert_eq!(
            refused(&["0", written]),
            format!("{written}  {NUMBER} For a text say text before it.\n")
        );
        assert_eq!(
            shown(&["@", "text", written]),
            format!("{written}  {written}\n")
        );
    }
}

#[test]
fn a_refused_value_does_not_stop_the_others() {
    let rows = "\
5           5
2024-10-14  refused: The section that takes this value cannot show its kind. (answer 11)
1e3         1e3  [as it is]
";
    assert_eq!(refused(&["0", "5", "2024-10-14", "1e3"]), rows);
}

#[test]
fn a_caret_stands_under_the_unit() {
    assert_eq!(
        refused(&["0\"salmon", "3", "4"]),
        format!("0\"salmon\n ^\n{TOKEN} 1)\n")
    );
    assert_eq!(
        refused(&["\"£\"0 °C", "3"]),
        format!("\"£\"0 °C\n     ^\n{TOKEN} 5)\n")
    );
    assert_eq!(
        refused(&["\"𝄞\"e", "3"]),
        format!("\"𝄞\"e\n   ^\n{TOKEN} 4)\n")
    );
    let sections =
        "0;0;0;0;0\n       ^\nrefused: The code has more than four sections. (answer 3, place 7)\n";
    assert_eq!(refused(&["0;0;0;0;0", "3"]), sections);
}

#[test]
fn a_line_stands_under_the_section() {
    let parts = "\";\"0;d0\n     ~~\nrefused: The parts of this section do not go together. (answer 4, place 1)\n";
    assert_eq!(refused(&["\";\"0;d0", "3"]), parts);
    let standing = "0;@;0\n  ~\nrefused: This section may not stand here. (answer 5, place 1)\n";
    assert_eq!(refused(&["0;@;0", "3"]), standing);
    let limit = "\
0;0%%%%%%
  ~~~~~~~
refused: This section has too many places, percents, commas, digits or letters. (answer 6, place 1)
";
    assert_eq!(refused(&["0;0%%%%%%", "3"]), limit);
}

#[test]
fn a_refusal_of_the_whole_is_a_sentence() {
    let length = "refused: The code is empty or longer than 254 signs. (answer 1)\n";
    assert_eq!(refused(&["", "3"]), length);
    assert_eq!(refused(&["0".repeat(255).as_str(), "3"]), length);
    assert_eq!(
        refused(&["0", "1234567890123456"]),
        "1234567890123456  refused: The value is out of range. (answer 9)\n"
    );
    assert_eq!(
        refused(&["[>=10]0;[<0]0", "5"]),
        "5  refused: No section takes this value. (answer 10)\n"
    );
    assert_eq!(
        refused(&["General", "100000000000"]),
        "100000000000  refused: The number is too large for General. (answer 12)\n"
    );
}

#[test]
fn a_control_character_is_a_picture() {
    assert_eq!(shown(&["@", "a\x1b[31m\nb"]), "a␛[31m␊b  a␛[31m␊b\n");
}

#[test]
fn a_code_may_look_like_an_option() {
    assert_eq!(shown(&["--0", "5"]), "5  --5\n");
    assert_eq!(shown(&["--", "--d", "2024-10-14"]), "2024-10-14  --14\n");
}
