//! Where in a refused code its fault stands.

use std::ops::Range;

use numfmt::{byte_of_unit, Answer, Refusal};

use crate::columns::{visible, width};

/// Spaces and then a caret under the unit that is at fault, or a line under the section; none where the whole code is.
pub fn mark(code: &str, refusal: &Refusal) -> Option<String> {
    let place = refusal.place as usize;
    let columns = |part: &str| width(&visible(part));
    let (start, sign) = match refusal.answer {
        Answer::Token | Answer::SectionCount => (byte_of_unit(code, place), "^".to_string()),
        Answer::Kind | Answer::Standing | Answer::Limit => {
            let section = sections(code).get(place)?.clone();
            (section.start, "~".repeat(columns(&code[section])))
        }
        _ => return None,
    };
    Some(" ".repeat(columns(&code[..start])) + &sign)
}

/// The sections of a code whose tokens are whole, as bytes. The library tells none of a code that it refuses; a section at fault
/// (4, 5, 6) is told of codes with whole tokens alone, and there a semicolon parts sections unless it stands in quotes or behind
/// `\`, `_` or `*`.
fn sections(code: &str) -> Vec<Range<usize>> {
    let mut sections = Vec::new();
    let mut start = 0;
    let mut characters = code.char_indices();
    while let Some((at, character)) = characters.next() {
        match character {
            '"' => drop(characters.find(|(_, inside)| *inside == '"')),
            '\\' | '_' | '*' => drop(characters.next()),
            ';' => {
                sections.push(start..at);
                start = at + 1;
            }
            _ => {}
        }
    }
    sections.push(start..code.len());
    sections
}

#[cfg(test)]
mod tests;
