//! The search in Rust with its memory laid out beforehand: what a draw passes on is kept in one array for each dimension,
//! and nothing is allocated or copied while it runs. It shows what the copies of blocks by value cost.

#[derive(Clone, Copy, PartialEq, Eq)]
pub enum Ending {
    Found,
    Failed,
    Spent,
}

#[derive(Clone, Copy)]
struct Space {
    basis: [u64; 64],
    forms: [u64; 64],
    count: usize,
}

pub struct Search {
    spaces: Vec<Space>,
    pub looks: u64,
    budget: u64,
}

fn odd(x: u64) -> bool {
    x.count_ones() % 2 == 1
}

fn is_alternating(s: &Space) -> bool {
    (0..s.count).all(|i| {
        !odd(s.forms[i] & s.basis[i])
            && (0..i).all(|j| odd(s.forms[i] & s.basis[j]) == odd(s.forms[j] & s.basis[i]))
    })
}

impl Search {
    pub fn new(core: &[u64], budget: u64) -> Self {
        let d = core.len();
        let mut spaces = vec![Space { basis: [0; 64], forms: [0; 64], count: 0 }; d + 1];
        spaces[d].count = d;
        for i in 0..d {
            spaces[d].basis[i] = 1 << i;
            spaces[d].forms[i] = core[i];
        }
        Search { spaces, looks: 0, budget }
    }

    /// Searches the space of dimension d that stands in its place.
    pub fn space(&mut self, d: usize) -> Ending {
        if d == 0 {
            return Ending::Found;
        }
        if is_alternating(&self.spaces[d]) {
            return Ending::Failed;
        }
        let (mut sums, mut forms) = ([0u64; 64], [0u64; 64]);
        let (mut b, mut f) = (0, 0);
        for i in 0..d {
            b ^= self.spaces[d].basis[i];
            f ^= self.spaces[d].forms[i];
            sums[i] = b;
            forms[i] = f;
        }
        let last = u64::MAX >> (64 - d);
        let (mut c, mut p, mut pe) = (0u64, 0u64, 0u64);
        let mut left = self.budget - self.looks;
        while c != last {
            c += 1;
            if left == 0 {
                self.looks = self.budget;
                return Ending::Spent;
            }
            left -= 1;
            let k = c.trailing_zeros() as usize;
            p ^= sums[k];
            pe ^= forms[k];
            if odd(pe & p) {
                self.looks = self.budget - left;
                self.pass_on(d, pe);
                match self.space(d - 1) {
                    Ending::Failed => left = self.budget - self.looks,
                    other => return other,
                }
            }
        }
        self.looks = self.budget - left;
        Ending::Failed
    }

    /// The first member that pe has a dot with is dropped, and added to each later one that pe has a dot with.
    fn pass_on(&mut self, d: usize, pe: u64) {
        let (below, here) = self.spaces.split_at_mut(d);
        let (s, t) = (&here[0], &mut below[d - 1]);
        let mut dropped = None;
        let mut k = 0;
        for i in 0..d {
            let (mut y, mut ye) = (s.basis[i], s.forms[i]);
            if odd(pe & y) {
                match dropped {
                    None => {
                        dropped = Some(i);
                        continue;
                    }
                    Some(j) => {
                        y ^= s.basis[j];
                        ye ^= s.forms[j];
                    }
                }
            }
            t.basis[k] = y;
            t.forms[k] = ye;
            k += 1;
        }
        t.count = d - 1;
    }
}

/// The looks of a search.
pub fn looks(core: &[u64], budget: u64) -> u64 {
    let mut s = Search::new(core, budget);
    s.space(core.len());
    s.looks
}
