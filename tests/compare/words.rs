//! Vectors on n qubits as 64-bit words (bit q is the x of qubit q, bit n + q its z): the pairing, turns, products, rank.

/// All bits below 2n.
pub fn mask(n: usize) -> u64 {
    if n == 32 {
        u64::MAX
    } else {
        (1 << (2 * n)) - 1
    }
}

/// The parity of the ones in the AND.
pub fn dot(a: u64, b: u64) -> bool {
    (a & b).count_ones() % 2 == 1
}

/// x of u times z of v and z of u times x of v, summed over the qubits.
pub fn pairing(n: usize, u: u64, v: u64) -> bool {
    let x = (1u64 << n) - 1;
    dot(u & x, v >> n) ^ dot(u >> n, v & x)
}

pub fn identity(n: usize) -> Vec<u64> {
    (0..2 * n).map(|k| 1 << k).collect()
}

/// The rows after one more turn on the right.
pub fn turn(n: usize, rows: &mut [u64], v: u64) {
    for row in rows {
        if pairing(n, *row, v) {
            *row ^= v;
        }
    }
}

/// The product of a list of turns.
pub fn product(n: usize, list: &[u64]) -> Vec<u64> {
    let mut rows = identity(n);
    for &v in list {
        turn(n, &mut rows, v);
    }
    rows
}

/// Vector times matrix.
pub fn times(v: u64, rows: &[u64]) -> u64 {
    let (mut left, mut sum) = (v, 0);
    while left != 0 {
        sum ^= rows[left.trailing_zeros() as usize];
        left &= left - 1;
    }
    sum
}

/// Do the rows pair as the basis does?
pub fn symplectic(n: usize, rows: &[u64]) -> bool {
    let basis = identity(n);
    (0..2 * n).all(|i| (0..2 * n).all(|j| pairing(n, rows[i], rows[j]) == pairing(n, basis[i], basis[j])))
}

/// The rank of some words, by their highest bits.
pub fn rank(words: &[u64]) -> usize {
    let mut kept: Vec<u64> = Vec::new();
    for &word in words {
        let rest = kept.iter().fold(word, |w, &k| w.min(w ^ k));
        if rest != 0 {
            kept.push(rest);
        }
    }
    kept.len()
}

/// The rank of I + F.
pub fn residue_rank(n: usize, rows: &[u64]) -> usize {
    let residue: Vec<u64> = identity(n).iter().zip(rows).map(|(e, f)| e ^ f).collect();
    rank(&residue)
}
