//! How text stands on a terminal.

/// A text of one line: a control character is shown by its picture, so that it can't move or paint anything.
pub fn visible(text: &str) -> String {
    text.chars().map(picture).collect()
}

fn picture(character: char) -> char {
    match u32::from(character) {
        code @ 0..=0x1f => char::from_u32(0x2400 + code).unwrap_or('\u{fffd}'),
        0x7f => '\u{2421}',
        0x80..=0x9f | 0x2028..=0x202e | 0x2066..=0x2069 => '\u{fffd}',
        _ => character,
    }
}

/// Columns that a text of `visible` takes.
pub fn width(text: &str) -> usize {
    text.chars().map(columns).sum()
}

/// Two for the scripts and pictures that terminals draw wide, none for marks on the character before: by blocks, which is near
/// enough for codes.
fn columns(character: char) -> usize {
    match u32::from(character) {
        0x0300..=0x036f | 0x200b..=0x200f | 0x20d0..=0x20ff | 0xfe00..=0xfe0f => 0,
        0x1100..=0x115f | 0x2e80..=0xa4cf | 0xac00..=0xd7a3 | 0xf900..=0xfaff | 0xfe30..=0xfe6f => {
            2
        }
        0xff01..=0xff60
        | 0xffe0..=0xffe6
        | 0x1f300..=0x1f64f
        | 0x1f680..=0x1f6ff
        | 0x1f900..=0x1faff => 2,
        0x20000..=0x3fffd => 2,
        _ => 1,
    }
}

#[cfg(test)]
mod tests {
    use super::*;

    #[test]
    fn control_characters_are_pictures() {
        assert_eq!(visible("a\x1b[31m\n\t\x7f\u{9b}"), "a␛[31m␊␉␡\u{fffd}");
        assert_eq!(visible("café 🐟"), "café 🐟");
    }

    #[test]
    fn wide_characters_and_marks_are_counted() {
        assert_eq!(width("0\"°C\""), 5);
        assert_eq!(width("鮭🐟"), 4);
        assert_eq!(width("e\u{301}"), 1);
    }
}
