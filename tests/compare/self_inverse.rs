//! Self-inverse actions of the model (request 9): which they are, how many turns they take, and what every list must be that the
//! call may choose.
use crate::words::{identity, mask, pairing, product, residue_rank, times};

/// F times F is the identity.
pub fn is_self_inverse(n: usize, rows: &[u64]) -> bool {
    rows.iter().map(|&row| times(row, rows)).eq(identity(n))
}

/// <u,uF> = 0 for all u: up to 6 qubits of every u; above, of the basis vectors and the sums of two, which decide it for all.
pub fn pairs_never(n: usize, rows: &[u64]) -> bool {
    if n <= 6 {
        (0..=mask(n)).all(|u| !pairing(n, u, times(u, rows)))
    } else {
        on_two(n, rows)
    }
}

/// The same of the basis vectors and the sums of two.
pub fn on_two(n: usize, rows: &[u64]) -> bool {
    let apart = |u: u64| !pairing(n, u, times(u, rows));
    (0..2 * n).all(|i| (0..=i).all(|j| apart(1 << i | 1 << j)))
}

/// How many turns a self-inverse action takes.
pub fn length(n: usize, rows: &[u64]) -> usize {
    if rows == identity(n) {
        0
    } else {
        residue_rank(n, rows) + usize::from(pairs_never(n, rows))
    }
}

/// What keeps a list from being one that may be chosen for a self-inverse action, by facts alone.
pub fn flaw(n: usize, rows: &[u64], list: &[u64]) -> Option<&'static str> {
    let commute = || list.iter().enumerate().all(|(k, &v)| list[..k].iter().all(|&w| !pairing(n, v, w)));
    if list.iter().any(|v| v & !mask(n) != 0) {
        Some("a listed vector has a bit from 2n up")
    } else if product(n, list) != rows {
        Some("the list's product is not the action")
    } else if !commute() {
        Some("two listed vectors pair to 1")
    } else if list.len() != length(n, rows) {
        Some("not as many turns as such an action takes")
    } else {
        None
    }
}
