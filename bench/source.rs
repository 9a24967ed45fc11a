//! The three calls of the Rust source, over the crate `oracle` (with `--cfg source`); without it, none is at hand.

#[cfg(source)]
pub use at_hand::Source;
#[cfg(not(source))]
pub use missing::Source;

#[cfg(source)]
mod at_hand {
    use binar::matrix::{kernel_basis_matrix, AlignedBitMatrix};
    use oracle::clifford::{
        clifford_fixed_space, clifford_to_transvections, clifford_to_transvections_minimal, Clifford,
    };
    use oracle::{Access, CliffordUnitary, Direct};

    /// A layer in the source's own form.
    pub struct Source {
        n: usize,
        unitary: CliffordUnitary,
        wide: Vec<u128>,
        /// I + F transposed, of which the fixed space is the kernel.
        equations: AlignedBitMatrix,
    }

    impl Source {
        pub fn of(n: usize, rows: &[u64]) -> Option<Self> {
            let wide: Vec<u128> = rows.iter().map(|&r| r as u128).collect();
            let unitary = oracle::unitary(n, &wide);
            let mut equations = unitary.rows.transposed();
            (0..2 * n).for_each(|k| equations.negate((k, k)));
            Some(Source { n, unitary, wide, equations })
        }

        /// `minimal_decomposition` alone: no conversion, phases or Pauli correction.
        pub fn minimal(&self) -> impl Sized {
            Access::minimal(&self.unitary.rows, self.n)
        }

        /// The whole call, phases and Pauli correction with it.
        pub fn signed(&self) -> impl Sized {
            clifford_to_transvections_minimal(&self.unitary)
        }

        pub fn greedy(&self) -> impl Sized {
            clifford_to_transvections(&self.unitary)
        }

        /// The part of the greedy call that is not the source's code: the stand-in writes its preimage rows.
        pub fn preimages(&self) -> impl Sized {
            self.unitary.symplectic_matrix()
        }

        pub fn fixed_space(&self) -> impl Sized {
            clifford_fixed_space(&self.unitary)
        }

        /// The parts of the fixed space call that are not the source's code: the preimage rows and the kernel.
        pub fn kernel(&self) -> impl Sized {
            (self.preimages(), kernel_basis_matrix(&self.equations))
        }

        /// The minimal list, and the draws of its search.
        pub fn minimal_list(&self) -> (Vec<u64>, u64) {
            oracle::reset_counters();
            let list = oracle::min_list_direct(self.n, &self.wide);
            (list.iter().map(|&v| v as u64).collect(), oracle::visits())
        }

        pub fn greedy_list(&self) -> Vec<u64> {
            oracle::greedy_list(self.n, &self.wide).iter().map(|&v| v as u64).collect()
        }

        pub fn fixed_list(&self) -> Vec<u64> {
            oracle::fixed_space(self.n, &self.wide).iter().map(|&v| v as u64).collect()
        }
    }
}

#[cfg(not(source))]
mod missing {
    pub enum Source {}

    impl Source {
        pub fn of(_: usize, _: &[u64]) -> Option<Self> {
            None
        }

        pub fn minimal(&self) {
            match *self {}
        }

        pub fn signed(&self) {
            match *self {}
        }

        pub fn greedy(&self) {
            match *self {}
        }

        pub fn preimages(&self) {
            match *self {}
        }

        pub fn fixed_space(&self) {
            match *self {}
        }

        pub fn kernel(&self) {
            match *self {}
        }

        pub fn minimal_list(&self) -> (Vec<u64>, u64) {
            match *self {}
        }

        pub fn greedy_list(&self) -> Vec<u64> {
            match *self {}
        }

        pub fn fixed_list(&self) -> Vec<u64> {
            match *self {}
        }
    }
}
