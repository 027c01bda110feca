use super::*;
use numfmt::Table;

/// The marks that the library's own refusals get.
fn marked(code: &str) -> Option<String> {
    mark(code, &Table::prepare(code).expect_err("a refused code"))
}

#[test]
fn a_caret_stands_under_the_unit() {
    assert_eq!(marked("0\"salmon").as_deref(), Some(" ^"));
    assert_eq!(marked("salmon").as_deref(), Some(" ^"));
    assert_eq!(marked("0;0;0;0;0").as_deref(), Some("       ^"));
}

#[test]
fn a_line_stands_under_the_section() {
    assert_eq!(marked("0;d0").as_deref(), Some("  ~~"));
    assert_eq!(marked("\";\"\\;_;*;0;@;0").as_deref(), Some("           ~"));
    assert_eq!(marked("0%%%%%%").as_deref(), Some("~~~~~~~"));
}

#[test]
fn a_code_of_wrong_length_has_no_mark() {
    assert_eq!(marked(""), None);
    assert_eq!(marked(&"0".repeat(255)), None);
}

#[test]
fn columns_are_counted_in_characters() {
    assert_eq!(marked("\"é\"e").as_deref(), Some("   ^"));
    assert_eq!(
        marked("\"🐟\"e").as_deref(),
        Some("    ^"),
        "outside the basic plane, and wide"
    );
    assert_eq!(
        marked("\"𝄞\"e").as_deref(),
        Some("   ^"),
        "outside the basic plane, and narrow"
    );
    assert_eq!(marked("\"鮭\";d0").as_deref(), Some("     ~~"));
    assert_eq!(
        marked("0\\🐟").as_deref(),
        Some("  ^"),
        "the second unit of the character starts no token"
    );
    assert_eq!(
        marked("\"\x1b\"e").as_deref(),
        Some("   ^"),
        "a control character is printed as one picture"
    );
}

/// Codes whose sections the library tells: the rule for semicolons is held to it.
#[test]
fn sections_are_the_librarys() {
    let parts = [
        "0", ";", "\"a;b\"", "\\;", "_;", "*;", "[Red]", "[>1]", "\"°\"", "\\\"", "\"\\\"", "@",
        " ",
    ];
    let mut accepted = 0;
    for number in 0..parts.len().pow(4) {
        let code: String = (0..4)
            .map(|place| parts[number / parts.len().pow(place) % parts.len()])
            .collect();
        if Table::prepare(&code).is_err() {
            continue;
        }
        accepted += 1;
        let own: Vec<&str> = sections(&code)
            .into_iter()
            .map(|part| &code[part])
            .collect();
        let told: Vec<&str> = (0..own.len() as u32)
            .map(|n| numfmt::section(&code, n))
            .collect();
        assert_eq!(own, told, "{code}");
        assert_eq!(numfmt::section(&code, own.len() as u32), "", "{code}");
    }
    assert!(accepted > 10_000, "{accepted}");
}
