//! The nine calls again, plainly, from the scope paper (the fixed space from request 3, the shorter list from request 4, the
//! memory from request 6, the gate sheet from request 8, self-inverse actions from request 9): the questions in their order, then
//! the answer.
use crate::fixed;
use crate::memory::Memory;
use crate::minimal::minimal_list;
use crate::self_inverse;
use crate::sheet;
use crate::words::{mask, pairing, product, symplectic};

/// The listed words and the looks (0 where the call has none), or the refusal.
pub type Reply = Result<(Vec<u64>, u64), u64>;

pub fn ask(passes: bool, number: u64) -> Result<(), u64> {
    if passes {
        Ok(())
    } else {
        Err(number)
    }
}

/// Questions 1 and 2: n as a width, and exactly 2n rows.
fn width(n: u64, rows: usize) -> Result<usize, u64> {
    ask(n <= 32, 1)?;
    ask(rows as u64 == 2 * n, 2)?;
    Ok(n as usize)
}

/// Questions 1 to 4.
fn action_questions(n: u64, rows: &[u64]) -> Result<usize, u64> {
    let n = width(n, rows.len())?;
    ask(rows.iter().all(|row| row & !mask(n) == 0), 3)?;
    ask(symplectic(n, rows), 4)?;
    Ok(n)
}

pub fn minimal(n: u64, rows: &[u64], budget: u64, out: usize) -> Reply {
    remembering(n, rows, budget, &mut Memory::new(0), out)
}

/// The same with a memory, empty before; refusals 1 to 5 leave it so.
pub fn remembering(n: u64, rows: &[u64], budget: u64, memory: &mut Memory, out: usize) -> Reply {
    let n = action_questions(n, rows)?;
    ask(out > 2 * n, 5)?;
    minimal_list(n, rows, budget, memory)
}

pub fn greedy(n: u64, rows: &[u64], out: usize) -> Reply {
    let n = action_questions(n, rows)?;
    ask(out >= 4 * n + 2, 5)?;
    let mut action = rows.to_vec();
    let mut record = Vec::new();
    while let Some(v) = next_turn(n, &action) {
        crate::words::turn(n, &mut action, v);
        record.push(v);
    }
    record.reverse();
    Ok((record, 0))
}

/// The greedy choice from I + F, or none where it is zero.
fn next_turn(n: usize, action: &[u64]) -> Option<u64> {
    let unit = |k: usize| 1u64 << k;
    let row = |k: usize| action[k] ^ unit(k);
    if let Some(k) = (0..2 * n).find(|&k| pairing(n, row(k), unit(k))) {
        return Some(row(k));
    }
    for i in 0..2 * n {
        for j in i + 1..2 * n {
            if pairing(n, row(i), unit(j)) != pairing(n, row(j), unit(i)) {
                return Some(row(i) ^ row(j));
            }
        }
    }
    (0..2 * n).map(row).find(|&v| v != 0)
}

pub fn fixed_space(n: u64, rows: &[u64], out: usize) -> Reply {
    let n = action_questions(n, rows)?;
    ask(out >= 2 * n, 5)?;
    Ok((fixed::basis(n, rows), 0))
}

/// How many turns are listed, or the refusal; which turns they are is the library's choice.
pub fn self_inverse(n: u64, rows: &[u64], out: usize) -> Result<usize, u64> {
    let n = action_questions(n, rows)?;
    ask(out > 2 * n, 5)?;
    ask(self_inverse::is_self_inverse(n, rows), 17)?;
    Ok(self_inverse::length(n, rows))
}

pub fn rebuild(n: u64, vectors: &[u64], out: usize) -> Reply {
    let n = width(n, out)?;
    ask(vectors.iter().all(|v| v & !mask(n) == 0), 8)?;
    Ok((product(n, vectors), 0))
}

/// 1 where the first list is chosen, 2 where the second is, or the refusal.
pub fn shorter(n: u64, rows: &[u64], first: &[u64], second: &[u64]) -> Result<u64, u64> {
    let n = action_questions(n, rows)?;
    let matches = |list: &[u64]| list.iter().all(|v| v & !mask(n) == 0) && product(n, list) == rows;
    let matching = [(1, first), (2, second)].into_iter().filter(|(_, list)| matches(list));
    // of equal lengths min_by_key takes the first
    matching.min_by_key(|(_, list)| list.len()).map(|(place, _)| place).ok_or(14)
}

/// 0 where a sheet can be put in force, or the refusal.
pub fn sheet_number(sheet: &[u8]) -> u64 {
    sheet::read(sheet).err().unwrap_or(0)
}

pub fn gates(n: u64, sheet: &[u8], bytes: &[u8], out: usize) -> Reply {
    let n = width(n, out)?;
    let sheet = sheet::read(sheet)?;
    let mut turns = Vec::new();
    for gate in bytes.chunks_exact(3) {
        let on_sheet = sheet.get(gate[0] as usize).ok_or(9u64)?;
        turns.extend(on_sheet.played(n, gate[1] as usize, gate[2] as usize)?);
    }
    Ok((product(n, &turns), 0))
}

/// A sequence of our six gates, by the scope paper's table and without a sheet.
pub fn six_gates(n: u64, bytes: &[u8], out: usize) -> Reply {
    let n = width(n, out)?;
    let mut turns = Vec::new();
    for gate in bytes.chunks_exact(3) {
        turns.extend(gate_turns(n, gate[0], gate[1] as usize, gate[2] as usize)?);
    }
    Ok((product(n, &turns), 0))
}

fn gate_turns(n: usize, gate: u8, a: usize, b: usize) -> Result<Vec<u64>, u64> {
    ask(gate <= 5, 9)?;
    let two = gate >= 3;
    ask(a < n && (!two || b < n), 10)?;
    ask(!two || a != b, 11)?;
    let x = |q: usize| 1u64 << q;
    let z = |q: usize| 1u64 << (n + q);
    let y = |q: usize| x(q) | z(q);
    Ok(match gate {
        0 => vec![y(a)],
        1 => vec![z(a)],
        2 => vec![x(a)],
        3 => vec![z(a), z(a) | x(b), x(b)],
        4 => vec![z(a), z(a) | z(b), z(b)],
        _ => vec![x(a) | x(b), y(a) | y(b), z(a) | z(b)],
    })
}
