//! The sentences are those that docs/CURATORS.md has for the answers.

use numfmt::Answer;

#[test]
fn sentences_are_those_of_the_page() {
    let page = concat!(env!("CARGO_MANIFEST_DIR"), "/../../docs/CURATORS.md");
    let page = std::fs::read_to_string(page).expect("the page can be read");
    for answer in &Answer::ALL[1..] {
        let row = format!("| {} | {} |", answer.number(), answer.text());
        assert!(page.lines().any(|line| line.starts_with(&row)), "{row}");
    }
}
