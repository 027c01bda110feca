//! The colours that a code may name: eight by name, 56 by number.

const NAMES: [&str; 8] = [
    "black", "white", "red", "green", "blue", "yellow", "magenta", "cyan",
];

/// The terminal's own colours for the eight, in their order.
const TERMINAL: [u8; 8] = [30, 37, 31, 32, 34, 33, 35, 36];

/// Red, green and blue of colours 1 to 56 in the usual palette of spreadsheets.
const PALETTE: [u32; 56] = [
    0x000000, 0xffffff, 0xff0000, 0x00ff00, 0x0000ff, 0xffff00, 0xff00ff, 0x00ffff, //
    0x800000, 0x008000, 0x000080, 0x808000, 0x800080, 0x008080, 0xc0c0c0, 0x808080, //
    0x9999ff, 0x993366, 0xffffcc, 0xccffff, 0x660066, 0xff8080, 0x0066cc, 0xccccff, //
    0x000080, 0xff00ff, 0xffff00, 0x00ffff, 0x800080, 0x800000, 0x008080, 0x0000ff, //
    0x00ccff, 0xccffff, 0xccffcc, 0xffff99, 0x99ccff, 0xff99cc, 0xcc99ff, 0xffcc99, //
    0x3366ff, 0x33cccc, 0x99cc00, 0xffcc00, 0xff9900, 0xff6600, 0x666699, 0x969696, //
    0x003366, 0x339966, 0x003300, 0x333300, 0x993300, 0x993366, 0x333399, 0x333333, //
];

/// How a note tells a colour: `red`, `colour 9`; none for 0.
pub fn name(colour: u16) -> Option<String> {
    let place = usize::from(colour).checked_sub(1)?;
    Some(
        NAMES
            .get(place)
            .map_or(format!("colour {colour}"), |name| name.to_string()),
    )
}

/// A text between the escapes that put a terminal into a colour and back. The eight are the terminal's own, which it has made to
/// be read on its background; the others are given by their parts.
pub fn painted(colour: u16, text: &str) -> String {
    let Some(place) = usize::from(colour).checked_sub(1) else {
        return text.to_string();
    };
    let parts = match (TERMINAL.get(place), PALETTE.get(place)) {
        (Some(own), _) => own.to_string(),
        (None, Some(parts)) => {
            let [_, red, green, blue] = parts.to_be_bytes();
            format!("38;2;{red};{green};{blue}")
        }
        (None, None) => return text.to_string(),
    };
    format!("\x1b[{parts}m{text}\x1b[0m")
}

#[cfg(test)]
mod tests {
    use super::*;

    #[test]
    fn a_colour_by_name_is_the_terminals_own() {
        assert_eq!(painted(0, "x"), "x");
        assert_eq!(painted(1, "x"), "\x1b[30mx\x1b[0m");
        assert_eq!(painted(3, "x"), "\x1b[31mx\x1b[0m");
        assert_eq!(painted(8, "x"), "\x1b[36mx\x1b[0m");
    }

    #[test]
    fn a_colour_by_number_is_that_of_the_palette() {
        assert_eq!(painted(9, "x"), "\x1b[38;2;128;0;0mx\x1b[0m");
        assert_eq!(painted(15, "x"), "\x1b[38;2;192;192;192mx\x1b[0m");
        assert_eq!(painted(46, "x"), "\x1b[38;2;255;102;0mx\x1b[0m");
        assert_eq!(painted(56, "x"), "\x1b[38;2;51;51;51mx\x1b[0m");
    }

    /// Numbers and colours of the page's table, whose cells are a number and, behind a name or not, six hexadecimal digits.
    fn page_palette() -> Vec<(usize, u32)> {
        let page = concat!(env!("CARGO_MANIFEST_DIR"), "/../../docs/CURATORS.md");
        let page = std::fs::read_to_string(page).expect("the page can be read");
        let rows = page
            .lines()
            .skip_while(|line| *line != "### The 56 colours");
        let rows = rows.skip_while(|line| !line.starts_with("|---")).skip(1);
        let mut palette = Vec::new();
        for row in rows.take_while(|line| line.starts_with('|')) {
            let mut number = 0;
            for cell in row.split('|').map(str::trim) {
                match cell.len() {
                    6 if cell.bytes().all(|sign| sign.is_ascii_hexdigit()) => {
                        palette.push((number, u32::from_str_radix(cell, 16).expect("digits")));
                    }
                    _ => number = cell.parse().unwrap_or(number),
                }
            }
        }
        palette.sort();
        palette
    }

    #[test]
    fn the_palette_is_that_of_the_page() {
        let own: Vec<(usize, u32)> = (1..).zip(PALETTE).collect();
        assert_eq!(page_palette(), own);
    }

    #[test]
    fn colours_are_told_by_name_or_number() {
        assert_eq!(name(0), None);
        assert_eq!(name(1).as_deref(), Some("black"));
        assert_eq!(name(8).as_deref(), Some("cyan"));
        assert_eq!(name(9).as_deref(), Some("colour 9"));
    }
}
