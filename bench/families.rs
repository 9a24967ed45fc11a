//! The kinds of layers that calls are timed on.
use crate::{layers, ours};

/// A kind of layer: its name, its qubit counts, and its rows for a seed.
type Family = (&'static str, &'static [usize], fn(usize, u64) -> Vec<u64>);

pub const FAMILIES: [Family; 4] = [
    ("uniform", &[2, 4, 8, 16, 32], layers::uniform),
    ("gates", &[8, 16, 32], |n, seed| ours::gate_rows(n, &layers::circuit(n, seed))),
    ("swaps", &[2, 4, 8, 16, 32], |n, seed| ours::gate_rows(n, &layers::swaps(n, seed))),
    ("permuted", &[4, 6, 8, 12], layers::permuted),
];
