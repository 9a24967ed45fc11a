//! The proved calls, by C's conventions.
#[allow(dead_code)]
#[path = "../examples/turnlist.rs"]
mod turnlist;
use turnlist::{
    turnlist_fixed_space, turnlist_gates, turnlist_greedy, turnlist_minimal, turnlist_minimal_remembering, turnlist_rebuild,
    turnlist_self_inverse, turnlist_shorter,
};

#[link(name = "cabi", kind = "static")]
extern "C" {}

/// Words enough for either list, for a fixed space and for an action.
pub const ROOM: usize = 130;
/// Words of a memory that hold one dead end.
pub const ENTRY: usize = turnlist::ENTRY_WORDS;

/// The refusal, how many vectors were listed, and the looks.
pub fn minimal(n: usize, rows: &[u64], budget: u64, out: &mut [u64; ROOM]) -> (u64, usize, u64) {
    let (mut count, mut looks) = (0, 0);
    let number = unsafe {
        turnlist_minimal(n as u64, rows.as_ptr(), rows.len(), budget, out.as_mut_ptr(), ROOM, &mut count, &mut looks)
    };
    (number, count as usize, looks)
}

/// The same with words lent for a memory of dead ends.
pub fn remembering(n: usize, rows: &[u64], budget: u64, memory: &mut [u64], out: &mut [u64; ROOM]) -> (u64, usize, u64) {
    let (mut count, mut looks) = (0, 0);
    let (n, rows, row_count, memory, memory_len) = (n as u64, rows.as_ptr(), rows.len(), memory.as_mut_ptr(), memory.len());
    let out = out.as_mut_ptr();
    let number = unsafe {
        turnlist_minimal_remembering(n, rows, row_count, budget, memory, memory_len, out, ROOM, &mut count, &mut looks)
    };
    (number, count as usize, looks)
}

/// The refusal, and how many vectors were listed.
pub fn greedy(n: usize, rows: &[u64], out: &mut [u64; ROOM]) -> (u64, usize) {
    let mut count = 0;
    let number = unsafe { turnlist_greedy(n as u64, rows.as_ptr(), rows.len(), out.as_mut_ptr(), ROOM, &mut count) };
    (number, count as usize)
}

/// The refusal, and how many vectors the reduced basis has.
pub fn fixed_space(n: usize, rows: &[u64], out: &mut [u64; ROOM]) -> (u64, usize) {
    let mut count = 0;
    let number = unsafe { turnlist_fixed_space(n as u64, rows.as_ptr(), rows.len(), out.as_mut_ptr(), ROOM, &mut count) };
    (number, count as usize)
}

/// The refusal, and how many vectors were listed.
pub fn self_inverse(n: usize, rows: &[u64], out: &mut [u64; ROOM]) -> (u64, usize) {
    let mut count = 0;
    let number = unsafe { turnlist_self_inverse(n as u64, rows.as_ptr(), rows.len(), out.as_mut_ptr(), ROOM, &mut count) };
    (number, count as usize)
}

/// The refusal, and how many rows the product has.
pub fn rebuild(n: usize, list: &[u64], out: &mut [u64; ROOM]) -> (u64, usize) {
    let mut count = 0;
    let number = unsafe { turnlist_rebuild(n as u64, list.as_ptr(), list.len(), out.as_mut_ptr(), 2 * n, &mut count) };
    (number, count as usize)
}

/// The refusal, and which list is chosen.
pub fn shorter(n: usize, rows: &[u64], first: &[u64], second: &[u64]) -> (u64, u64) {
    let mut chosen = 0;
    let (a, b) = (first.as_ptr(), second.as_ptr());
    let number =
        unsafe { turnlist_shorter(n as u64, rows.as_ptr(), rows.len(), a, first.len(), b, second.len(), &mut chosen) };
    (number, chosen)
}

/// The rows of a sequence of our six gates.
pub fn gate_rows(n: usize, gates: &[u8]) -> Vec<u64> {
    let mut rows = vec![0; 2 * n];
    let mut count = 0;
    let (sheet, to) = (turnlist::SIX_GATES, rows.as_mut_ptr());
    let number = unsafe {
        turnlist_gates(n as u64, sheet.as_ptr(), sheet.len(), gates.as_ptr(), gates.len(), to, rows.len(), &mut count)
    };
    assert_eq!((number, count), (0, 2 * n as u64), "the gate sequence is refused");
    rows
}
