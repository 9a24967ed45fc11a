//! The search in plain Rust: the drawn vector and its form are carried along, and what a draw passes on are two vectors.

#[derive(Clone, Copy, PartialEq, Eq)]
pub enum Ending {
    Found,
    Failed,
    Spent,
}

pub struct Search {
    pub looks: u64,
    budget: u64,
}

fn odd(x: u64) -> bool {
    x.count_ones() % 2 == 1
}

fn is_alternating(basis: &[u64], forms: &[u64]) -> bool {
    (0..basis.len()).all(|i| {
        !odd(forms[i] & basis[i]) && (0..i).all(|j| odd(forms[i] & basis[j]) == odd(forms[j] & basis[i]))
    })
}

/// Element i is the sum of the elements 0 to i.
fn sums(rows: &[u64]) -> Vec<u64> {
    let mut sum = 0;
    rows.iter()
        .map(|r| {
            sum ^= r;
            sum
        })
        .collect()
}

/// The first member that pe has a dot with is dropped, and added to each later one that pe has a dot with; forms likewise.
fn complement(pe: u64, basis: &[u64], forms: &[u64]) -> (Vec<u64>, Vec<u64>) {
    let j = basis.iter().position(|y| odd(pe & y)).expect("the drawn vector lies in the span");
    let rest = |rows: &[u64]| {
        (0..rows.len())
            .filter(|&i| i != j)
            .map(|i| if odd(pe & basis[i]) { rows[i] ^ rows[j] } else { rows[i] })
            .collect()
    };
    (rest(basis), rest(forms))
}

impl Search {
    pub fn space(&mut self, basis: &[u64], forms: &[u64]) -> Ending {
        let d = basis.len();
        if d == 0 {
            return Ending::Found;
        }
        if is_alternating(basis, forms) {
            return Ending::Failed;
        }
        let (basis_sums, form_sums) = (sums(basis), sums(forms));
        let last = u64::MAX >> (64 - d);
        let (mut c, mut p, mut pe) = (0u64, 0u64, 0u64);
        while c != last {
            c += 1;
            if self.looks == self.budget {
                return Ending::Spent;
            }
            self.looks += 1;
            let k = c.trailing_zeros() as usize;
            p ^= basis_sums[k];
            pe ^= form_sums[k];
            if odd(pe & p) {
                let (rest, rest_forms) = complement(pe, basis, forms);
                match self.space(&rest, &rest_forms) {
                    Ending::Failed => {}
                    other => return other,
                }
            }
        }
        Ending::Failed
    }
}

/// The looks of a search.
pub fn looks(core: &[u64], budget: u64) -> u64 {
    let basis: Vec<u64> = (0..core.len()).map(|i| 1 << i).collect();
    let mut s = Search { looks: 0, budget };
    s.space(&basis, core);
    s.looks
}
