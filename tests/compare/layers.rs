//! Families of actions, as lists of turns, from a small deterministic random generator.
use crate::words::{identity, mask, pairing, product, residue_rank, times};
use std::collections::HashSet;

/// Splitmix64.
pub struct Random(pub u64);

impl Random {
    pub fn word(&mut self) -> u64 {
        self.0 = self.0.wrapping_add(0x9E37_79B9_7F4A_7C15);
        let a = (self.0 ^ self.0 >> 30).wrapping_mul(0xBF58_476D_1CE4_E5B9);
        let b = (a ^ a >> 27).wrapping_mul(0x94D0_49BB_1331_11EB);
        b ^ b >> 31
    }

    /// A number below the limit, which is not 0.
    pub fn below(&mut self, limit: usize) -> usize {
        (self.word() % limit as u64) as usize
    }

    pub fn one_in(&mut self, of: usize) -> bool {
        self.below(of) == 0
    }

    pub fn vector(&mut self, n: usize) -> u64 {
        self.word() & mask(n)
    }

    /// A vector on at most this many qubits.
    pub fn light_vector(&mut self, n: usize, qubits: usize) -> u64 {
        (0..qubits).fold(0, |v, _| v | on_qubits(self.vector(1), &[self.below(n)], n))
    }

    pub fn shuffled(&mut self, n: usize) -> Vec<usize> {
        let mut order: Vec<usize> = (0..n).collect();
        for k in (1..n).rev() {
            let other = self.below(k + 1);
            order.swap(k, other);
        }
        order
    }
}

/// A vector on as many qubits as are named, moved to these qubits of n.
pub fn on_qubits(v: u64, qubits: &[usize], n: usize) -> u64 {
    let m = qubits.len();
    let mut moved = 0;
    for (k, &q) in qubits.iter().enumerate() {
        moved |= (v >> k & 1) << q | (v >> (m + k) & 1) << (n + q);
    }
    moved
}

/// Every symplectic action on n qubits, each with a list of turns, by breadth from the identity.
pub fn all_actions(n: usize) -> Vec<(Vec<u64>, Vec<u64>)> {
    let mut found = vec![(identity(n), Vec::new())];
    let mut known: HashSet<Vec<u64>> = HashSet::from([identity(n)]);
    let mut next = 0;
    while next < found.len() {
        let (rows, list) = found[next].clone();
        for v in 1..=mask(n) {
            let mut rows = rows.clone();
            crate::words::turn(n, &mut rows, v);
            if known.insert(rows.clone()) {
                found.push((rows, [list.clone(), vec![v]].concat()));
            }
        }
        next += 1;
    }
    found
}

#[derive(Clone, Copy, Debug, PartialEq)]
pub enum Family {
    Uniform,
    FewTurns,
    Permutation,
    Involution,
    DirectSum,
    Hyperbolic,
    Exceptional,
}

pub const FAMILIES: [(Family, &str); 7] = [
    (Family::Uniform, "uniform"),
    (Family::FewTurns, "1 to 6 turns"),
    (Family::Permutation, "qubit permutations"),
    (Family::Involution, "involutions"),
    (Family::DirectSum, "direct sums"),
    (Family::Hyperbolic, "hyperbolic"),
    (Family::Exceptional, "exceptional sums"),
];

/// Draws actions of the families. An exceptional block is an action on two qubits that is not hyperbolic and yet needs a turn
/// more than its rank.
pub struct Layers {
    pub random: Random,
    exceptional: Vec<Vec<u64>>,
}

impl Layers {
    pub fn new(seed: u64) -> Layers {
        let needs_more = |rows: &[u64]| {
            let list = crate::model::minimal(2, rows, u64::MAX, 5).map(|reply| reply.0);
            list.is_ok_and(|list| list.len() > residue_rank(2, rows)) && !hyperbolic(2, rows)
        };
        let all = all_actions(2).into_iter();
        let exceptional = all.filter(|(rows, _)| needs_more(rows)).map(|(_, list)| list).collect();
        Layers { random: Random(seed), exceptional }
    }

    /// An action of the family on n qubits, n at least 1.
    pub fn action(&mut self, family: Family, n: usize) -> Vec<u64> {
        let list = match family {
            Family::Uniform => self.uniform(n),
            Family::FewTurns => self.few_turns(n),
            Family::Permutation => return self.permutation(n),
            Family::Involution => self.involution(n),
            Family::DirectSum => self.direct_sum(n),
            Family::Hyperbolic => self.hyperbolic(n),
            Family::Exceptional => self.exceptional_sum(n),
        };
        product(n, &list)
    }

    fn uniform(&mut self, n: usize) -> Vec<u64> {
        (0..6 * n).map(|_| self.random.vector(n)).collect()
    }

    fn few_turns(&mut self, n: usize) -> Vec<u64> {
        let (count, light) = (1 + self.random.below(6), self.random.one_in(2));
        (0..count).map(|_| if light { self.random.light_vector(n, 3) } else { self.random.vector(n) }).collect()
    }

    fn permutation(&mut self, n: usize) -> Vec<u64> {
        let order = self.random.shuffled(n);
        (0..2 * n).map(|k| if k < n { 1 << order[k] } else { 1 << (n + order[k - n]) }).collect()
    }

    /// The list seen through a random change of basis, one time in two.
    fn conjugate(&mut self, n: usize, list: Vec<u64>) -> Vec<u64> {
        if self.random.one_in(2) {
            return list;
        }
        let change = product(n, &self.uniform(n));
        list.iter().map(|&v| times(v, &change)).collect()
    }

    /// Turns of vectors that are pairwise orthogonal, or SWAPs with a few single turns beside them.
    fn involution(&mut self, n: usize) -> Vec<u64> {
        if self.random.one_in(2) {
            let plane = product(n, &self.uniform(n));
            let count = 1 + self.random.below(n);
            return (0..count).map(|_| times(self.random.vector(n) & mask(n) >> n, &plane)).collect();
        }
        let order = self.random.shuffled(n);
        let (swaps, singles) = (self.random.below(n / 2 + 1), self.random.below(3));
        let mut list = Vec::new();
        for pair in order.chunks_exact(2).take(swaps) {
            list.extend([0b0011, 0b1111, 0b1100].map(|v| on_qubits(v, pair, n)));
        }
        for q in order.iter().skip(2 * swaps).take(singles) {
            list.push(on_qubits(0b11, &[*q], n));
        }
        self.conjugate(n, list)
    }

    /// Controlled X gates on disjoint pairs, through a change of basis: every hyperbolic action is one.
    fn hyperbolic(&mut self, n: usize) -> Vec<u64> {
        let order = self.random.shuffled(n);
        let pairs = 1 + self.random.below((n / 2).max(1));
        let mut list = Vec::new();
        for pair in order.chunks_exact(2).take(pairs) {
            list.extend([0b0100, 0b0110, 0b0010].map(|v| on_qubits(v, pair, n)));
        }
        self.conjugate(n, list)
    }

    fn direct_sum(&mut self, n: usize) -> Vec<u64> {
        let order = self.random.shuffled(n);
        let mut list = Vec::new();
        let mut start = 0;
        while start < n {
            let block = &order[start..n.min(start + 1 + self.random.below(4))];
            start += block.len();
            let part = match self.random.below(5) {
                0 => Vec::new(),
                1 => self.hyperbolic(block.len()),
                2 => self.few_turns(block.len()),
                _ => self.uniform(block.len()),
            };
            list.extend(part.iter().map(|&v| on_qubits(v, block, n)));
        }
        list
    }

    /// Exceptional blocks on pairs of qubits, and now and then one more turn.
    fn exceptional_sum(&mut self, n: usize) -> Vec<u64> {
        let order = self.random.shuffled(n);
        let blocks = 1 + self.random.below((n / 2).clamp(1, 6));
        let mut list = Vec::new();
        for pair in order.chunks_exact(2).take(blocks) {
            let block = &self.exceptional[self.random.below(self.exceptional.len())];
            list.extend(block.iter().map(|&v| on_qubits(v, pair, n)));
        }
        if self.random.one_in(4) {
            list.push(self.random.vector(n));
        }
        self.conjugate(n, list)
    }
}

/// <u, uF> = 0 for every u: so on the basis, and so is its polar form.
pub fn hyperbolic(n: usize, rows: &[u64]) -> bool {
    let unit = |k: usize| 1u64 << k;
    (0..2 * n).all(|i| {
        !pairing(n, unit(i), rows[i]) && (0..i).all(|j| pairing(n, unit(i), rows[j]) == pairing(n, unit(j), rows[i]))
    })
}
