use super::number;
use crate::oracle::{answer, prepare, units, Board, Row, Value, ROWS};

const ROOM: usize = 64;

fn put(board: &Board, row: u32, code: &str, value: &Value) -> (Board, u16) {
    let table = prepare(&units(code), 557).words;
    let (board, shown) = board.put(row, &table, value, ROOM);
    (board, shown.err().unwrap_or(answer::DONE))
}

fn row(filled: u8, length: u32, colour: u16) -> Row {
    Row {
        filled,
        length,
        colour,
    }
}

#[test]
fn the_width_falls_with_the_widest_row() {
    let (board, _) = put(&Board::empty(), 0, "#,##0", &number(12000, 0));
    let (board, _) = put(&board, 63, "[Red]0", &number(-5, 0));
    assert_eq!(
        (board.rows[0], board.rows[63]),
        (row(1, 6, 0), row(1, 2, 3))
    );
    assert_eq!(board.widest, 6);
    let (board, _) = put(&board, 0, "0", &number(7, 0));
    assert_eq!(board.widest, 2);
    let (board, done) = board.clear(63);
    assert_eq!((board.widest, done), (1, answer::DONE));
    assert_eq!(board.clear(0), (Board::empty(), answer::DONE));
}

#[test]
fn an_empty_text_fills_its_row() {
    let (board, _) = put(&Board::empty(), 5, ";", &number(1, 0));
    assert_eq!((board.rows[5], board.widest), (row(1, 0, 0), 0));
    assert_ne!(board, Board::empty());
}

#[test]
fn a_refusal_leaves_the_board() {
    let board = Board {
        rows: vec![row(0, 9, 9); ROWS],
        widest: 77,
    };
    assert_eq!(
        put(&board, 64, "", &number(1, 0)),
        (board.clone(), answer::ROW)
    );
    assert_eq!(
        put(&board, 3, "", &number(1, 0)),
        (board.clone(), answer::TABLE)
    );
    assert_eq!(
        put(&board, 3, "d", &number(1, 0)),
        (board.clone(), answer::SORT)
    );
    assert_eq!(board.clear(u32::MAX), (board.clone(), answer::ROW));
    assert_eq!(board.clear(3).0.widest, 0);
}
