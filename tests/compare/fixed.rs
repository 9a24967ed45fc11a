//! The fixed space of the model, and reduced bases: each word's lowest one, its pivot, is in no other word, and pivots ascend.
use crate::words::{mask, residue_rank, times};

fn lowest(word: u64) -> u64 {
    word & word.wrapping_neg()
}

fn highest(word: u64) -> u64 {
    1 << word.ilog2()
}

/// Column k of I + F, row 0 in bit 0: vF = v says that v has an even number of ones in common with each.
fn column(rows: &[u64], k: usize) -> u64 {
    rows.iter().enumerate().fold(0, |word, (i, row)| word | ((row ^ 1 << i) >> k & 1) << i)
}

/// The reduced basis of all v with vF = v. The columns, as equations on v, are solved for their highest bits; a bit that none is
/// solved for is free, and sets the bits that depend on it, which are higher.
pub fn basis(n: usize, rows: &[u64]) -> Vec<u64> {
    let mut solved: Vec<u64> = Vec::new();
    for k in 0..2 * n {
        let left = solved.iter().fold(column(rows, k), |left, e| if left & highest(*e) == 0 { left } else { left ^ e });
        if left != 0 {
            solved.iter_mut().filter(|e| **e & highest(left) != 0).for_each(|e| *e ^= left);
            solved.push(left);
        }
    }
    let bound = solved.iter().fold(0, |word, e| word | highest(*e));
    let free = (0..2 * n).map(|k| 1 << k).filter(|bit| bit & bound == 0);
    free.map(|bit| solved.iter().filter(|e| **e & bit != 0).fold(bit, |v, e| v | highest(*e))).collect()
}

/// The reduced basis of what some words span.
pub fn reduced(words: &[u64]) -> Vec<u64> {
    let mut kept: Vec<u64> = Vec::new();
    for &word in words {
        let left = kept.iter().fold(word, |left, k| if left & lowest(*k) == 0 { left } else { left ^ k });
        if left != 0 {
            kept.iter_mut().filter(|k| **k & lowest(left) != 0).for_each(|k| *k ^= left);
            kept.push(left);
        }
    }
    kept.sort_by_key(|k| lowest(*k));
    kept
}

pub fn is_reduced(words: &[u64]) -> bool {
    let alone = |word: &u64| words.iter().filter(|other| *other & lowest(*word) != 0).count() == 1;
    words.iter().all(alone) && words.windows(2).all(|pair| lowest(pair[0]) < lowest(pair[1]))
}

/// What keeps a list from being the reduced basis of the fixed space, by facts alone.
pub fn flaw(n: usize, rows: &[u64], list: &[u64]) -> Option<&'static str> {
    if list.iter().any(|&v| v & !mask(n) != 0 || times(v, rows) != v) {
        Some("a listed vector is not fixed")
    } else if list.len() + residue_rank(n, rows) != 2 * n {
        Some("not 2n - r vectors")
    } else if !is_reduced(list) {
        Some("not reduced, or the pivots do not ascend")
    } else {
        None
    }
}
