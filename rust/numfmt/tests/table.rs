//! What the owning layer adds to the calls: rooms that grow, strings for units, refusals in words.

use numfmt::{Answer, Refusal, Table, TEXT_MOST};

#[test]
fn a_long_text_gets_its_room() {
    let table = Table::prepare(&"@".repeat(254)).unwrap();
    let text = "x".repeat(TEXT_MOST);
    assert_eq!(table.show_text(&text).unwrap().text, text.repeat(254));
    assert_eq!(
        table
            .show_text(&"x".repeat(TEXT_MOST + 1))
            .unwrap_err()
            .answer,
        Answer::Range
    );
}

#[test]
fn characters_outside_the_basic_plane_stay_whole() {
    let table = Table::prepare("\"🐟 \"0").unwrap();
    assert_eq!(table.show_number(3, 0).unwrap().text, "🐟 3");
    assert_eq!(numfmt::section("\"🐟\"0;\"°\"0", 1), "\"°\"0");
}

#[test]
fn any_units_may_be_lent() {
    assert_eq!(
        Table::prepare_units(&[]).unwrap_err().answer,
        Answer::CodeLength
    );
    let quoted = [0x22, 0xd800, 0x22];
    let table = Table::prepare_units(&quoted).unwrap();
    assert_eq!(table.show_number(1, 0).unwrap().text, "\u{fffd}");
    assert_eq!(Table::from_words(&[]).unwrap_err().answer, Answer::Table);
}

#[test]
fn a_refusal_tells_its_place_where_it_has_one() {
    let said = |refusal: Refusal| refusal.to_string();
    assert_eq!(
        said(Table::prepare("0;@;0").unwrap_err()),
        "This section may not stand here. (answer 5, place 1)"
    );
    let table = Table::prepare("0").unwrap();
    assert_eq!(
        said(table.show_number(0, 16).unwrap_err()),
        "The value is out of range. (answer 9)"
    );
}

#[test]
fn every_answer_has_its_own_sentence() {
    let mut sentences: Vec<&str> = Answer::ALL.into_iter().map(Answer::text).collect();
    sentences.sort();
    sentences.dedup();
    assert_eq!(sentences.len(), Answer::ALL.len());
    assert!(sentences.iter().all(|sentence| sentence.ends_with('.')));
}
