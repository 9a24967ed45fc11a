//! The memory of the model (request 6): spaces that failed, in the order in which they were entered.
use crate::fixed::reduced;

/// How many words an entry takes: the dimension, then as many rows as a row has columns.
pub const ENTRY: usize = 65;

pub struct Memory {
    room: usize,
    spaces: Vec<Vec<u64>>,
}

impl Memory {
    /// An empty one, with room for as many whole entries as the words hold.
    pub fn new(words: usize) -> Memory {
        Memory { room: words / ENTRY, spaces: Vec::new() }
    }

    /// Whether it holds what a basis spans.
    pub fn holds(&self, basis: &[u64]) -> bool {
        !self.spaces.is_empty() && self.spaces.contains(&reduced(basis))
    }

    /// Enters what a basis spans, if it is not held and there is room.
    pub fn enter(&mut self, basis: &[u64]) {
        if self.spaces.len() < self.room && !self.holds(basis) {
            self.spaces.push(reduced(basis));
        }
    }

    /// The lent words once the entries are laid into them.
    pub fn laid(&self, lent: &[u64]) -> Vec<u64> {
        let mut words = lent.to_vec();
        for (entry, space) in words.chunks_exact_mut(ENTRY).zip(&self.spaces) {
            entry.fill(0);
            entry[0] = space.len() as u64;
            entry[1..=space.len()].copy_from_slice(space);
        }
        words
    }
}
