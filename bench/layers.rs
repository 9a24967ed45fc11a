//! Layers to time: uniform random actions, circuits of random gates, layers of SWAPs, permutations of the qubits. All from seeds.

/// Numbers from a seed (splitmix64).
pub struct Random(pub u64);

impl Random {
    pub fn word(&mut self) -> u64 {
        self.0 = self.0.wrapping_add(0x9e37_79b9_7f4a_7c15);
        let mut z = self.0;
        z = (z ^ (z >> 30)).wrapping_mul(0xbf58_476d_1ce4_e5b9);
        z = (z ^ (z >> 27)).wrapping_mul(0x94d0_49bb_1331_11eb);
        z ^ (z >> 31)
    }

    pub fn below(&mut self, n: u64) -> u64 {
        self.word() % n
    }
}

/// The pairing of two vectors on n qubits.
fn pairs(n: usize, u: u64, v: u64) -> bool {
    let low = (1u64 << n) - 1;
    ((u & low & (v >> n)) ^ ((u >> n) & v & low)).count_ones() % 2 == 1
}

/// A random vector, made orthogonal to the pairs of rows so far.
fn apart(n: usize, rows: &[u64], done: usize, random: &mut Random) -> u64 {
    let mut v = random.word() & (u64::MAX >> (64 - 2 * n));
    for q in 0..done {
        let (x, z) = (rows[q], rows[n + q]);
        let (with_x, with_z) = (pairs(n, v, x), pairs(n, v, z));
        v ^= if with_z { x } else { 0 } ^ if with_x { z } else { 0 };
    }
    v
}

/// An action drawn uniformly: pair by pair, each pair random in what is orthogonal to those before it.
pub fn uniform(n: usize, seed: u64) -> Vec<u64> {
    let mut random = Random(seed);
    let mut rows = vec![0; 2 * n];
    for q in 0..n {
        while rows[q] == 0 {
            rows[q] = apart(n, &rows, q, &mut random);
        }
        while !pairs(n, rows[q], rows[n + q]) {
            rows[n + q] = apart(n, &rows, q, &mut random);
        }
    }
    rows
}

/// Gates at random, four for each qubit, three bytes each.
pub fn circuit(n: usize, seed: u64) -> Vec<u8> {
    let mut random = Random(seed);
    let mut gates = Vec::new();
    for _ in 0..4 * n {
        let a = random.below(n as u64);
        let b = (a + 1 + random.below(n as u64 - 1)) % n as u64;
        gates.extend([random.below(6) as u8, a as u8, b as u8]);
    }
    gates
}

/// The qubits in a random order.
fn order(n: usize, seed: u64) -> Vec<u8> {
    let mut random = Random(seed);
    let mut order: Vec<u8> = (0..n as u8).collect();
    for i in (1..n).rev() {
        order.swap(i, random.below(i as u64 + 1) as usize);
    }
    order
}

/// SWAPs of the qubits two by two.
pub fn swaps(n: usize, seed: u64) -> Vec<u8> {
    order(n, seed).chunks_exact(2).flat_map(|p| [5, p[0], p[1]]).collect()
}

/// The qubits permuted: short searches, long ones and hopeless ones, with many dead ends.
pub fn permuted(n: usize, seed: u64) -> Vec<u64> {
    let order = order(n, seed);
    (0..2 * n).map(|k| 1 << (order[k % n] as usize + k / n * n)).collect()
}
