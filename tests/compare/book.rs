//! The book of the model (request 10): the least length of each two-qubit action, by breadth from the identity. An action has a
//! 16-bit code, row i in bits 4i to 4i + 3; a code that is not reached is not in the book.
use crate::layers::all_actions;
use std::sync::OnceLock;

pub fn rows_of(code: u16) -> Vec<u64> {
    (0..4).map(|i| u64::from(code) >> (4 * i) & 15).collect()
}

/// The code of four rows of four bits.
pub fn code_of(rows: &[u64]) -> u16 {
    rows.iter().rev().fold(0, |code, row| code << 4 | *row as u16)
}

/// The lengths by code. The lists by breadth are as short as any.
fn lengths() -> Vec<Option<u64>> {
    let mut lengths = vec![None; 1 << 16];
    for (rows, list) in all_actions(2) {
        lengths[usize::from(code_of(&rows))] = Some(list.len() as u64);
    }
    lengths
}

/// The fewest turns of any list whose product is the action; none where the code is not in the book.
pub fn length(code: u16) -> Option<u64> {
    static LENGTHS: OnceLock<Vec<Option<u64>>> = OnceLock::new();
    LENGTHS.get_or_init(lengths)[usize::from(code)]
}
