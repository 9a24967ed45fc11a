//! The minimal list of the model: reduction, core, search with a budget and a memory, and the bordered list.
use crate::memory::Memory;
use crate::words::{dot, identity, product, rank, times};

/// I + F with the upper and lower n rows exchanged.
fn residue(n: usize, action: &[u64]) -> Vec<u64> {
    let other = |k: usize| if k < n { k + n } else { k - n };
    (0..2 * n).map(|k| action[other(k)] ^ 1 << other(k)).collect()
}

/// The basis V, and the core E, V times R transposed.
fn core_of(n: usize, action: &[u64]) -> (Vec<u64>, Vec<u64>) {
    let mut rows = residue(n, action);
    let mut transform = identity(n);
    let mut pivot = 0;
    for column in 0..2 * n {
        let Some(found) = (pivot..2 * n).find(|&k| rows[k] >> column & 1 == 1) else { continue };
        rows.swap(pivot, found);
        transform.swap(pivot, found);
        for k in 0..2 * n {
            if k != pivot && rows[k] >> column & 1 == 1 {
                rows[k] ^= rows[pivot];
                transform[k] ^= transform[pivot];
            }
        }
        pivot += 1;
    }
    rows.truncate(pivot);
    transform.truncate(pivot);
    let core = rows.iter().map(|&v| bits(transform.iter().map(|&r| dot(v, r)))).collect();
    (rows, core)
}

/// The word whose bit i is the i-th of these.
fn bits(of: impl Iterator<Item = bool>) -> u64 {
    of.enumerate().fold(0, |word, (i, bit)| word | u64::from(bit) << i)
}

/// The form pEy.
fn form(core: &[u64], p: u64, y: u64) -> bool {
    dot(times(p, core), y)
}

/// Zero diagonal and symmetric on the span of the basis.
fn alternating(core: &[u64], basis: &[u64]) -> bool {
    let images: Vec<u64> = basis.iter().map(|&b| times(b, core)).collect();
    (0..basis.len())
        .all(|i| !dot(images[i], basis[i]) && (0..i).all(|j| dot(images[i], basis[j]) == dot(images[j], basis[i])))
}

/// The rest that p passes on: the first member m with pEm = 1 dropped and added to the others with pEy = 1.
fn rest(core: &[u64], p: u64, basis: &[u64]) -> Option<Vec<u64>> {
    let image = times(p, core);
    let m = basis.iter().position(|&y| dot(image, y))?;
    let mut kept = Vec::with_capacity(basis.len() - 1);
    for (i, &y) in basis.iter().enumerate() {
        if i != m {
            kept.push(if dot(image, y) { y ^ basis[m] } else { y });
        }
    }
    Some(kept)
}

/// The search would look beyond its budget.
struct Spent;

struct Search<'a> {
    core: &'a [u64],
    budget: u64,
    looks: u64,
    memory: &'a mut Memory,
}

impl Search<'_> {
    /// The picks of the first way through this space, or none.
    fn space(&mut self, basis: &[u64]) -> Result<Option<Vec<u64>>, Spent> {
        if basis.is_empty() {
            return Ok(Some(Vec::new()));
        }
        if self.memory.holds(basis) {
            return Ok(None);
        }
        let found = self.draws(basis)?;
        if found.is_none() {
            self.memory.enter(basis);
        }
        Ok(found)
    }

    /// The same of a space that has members and is not held.
    fn draws(&mut self, basis: &[u64]) -> Result<Option<Vec<u64>>, Spent> {
        if alternating(self.core, basis) {
            return Ok(None);
        }
        for coefficients in 1..=u64::MAX >> (64 - basis.len()) {
            if let Some(found) = self.draw(basis, times(coefficients, basis))? {
                return Ok(Some(found));
            }
        }
        Ok(None)
    }

    fn draw(&mut self, basis: &[u64], p: u64) -> Result<Option<Vec<u64>>, Spent> {
        if self.looks == self.budget {
            return Err(Spent);
        }
        self.looks += 1;
        if !form(self.core, p, p) {
            return Ok(None);
        }
        let Some(kept) = rest(self.core, p, basis) else { return Ok(None) };
        let found = self.space(&kept)?;
        Ok(found.map(|picks| [vec![p], picks].concat()))
    }
}

/// Vectors, and which of them the relation holds.
type Family = (Vec<u64>, Vec<bool>);

fn pick(core: &[u64], basis: &[u64]) -> Option<u64> {
    if let Some(&p) = basis.iter().find(|&&p| form(core, p, p)) {
        return Some(p);
    }
    for (i, &a) in basis.iter().enumerate() {
        for &b in &basis[i + 1..] {
            if form(core, a, b) != form(core, b, a) {
                return Some(a ^ b);
            }
        }
    }
    None
}

fn bordered_family(core: &[u64], basis: &[u64]) -> Option<Family> {
    let Some(p) = pick(core, basis) else {
        let vectors = simplex(core, basis)?;
        let relation = vec![true; vectors.len()];
        return Some((vectors, relation));
    };
    let (mut vectors, mut relation) = bordered_family(core, &rest(core, p, basis)?)?;
    vectors.insert(0, p);
    relation.insert(0, false);
    Some((vectors, relation))
}

fn simplex(core: &[u64], basis: &[u64]) -> Option<Vec<u64>> {
    let Some(&f) = basis.first() else { return Some(vec![0]) };
    let partner = (1..basis.len()).find(|&k| form(core, f, basis[k]))?;
    let s = basis[partner];
    let mut remainder = Vec::new();
    for (k, &y) in basis.iter().enumerate() {
        if k != 0 && k != partner {
            let gain_f = if form(core, s, y) { f } else { 0 };
            let gain_s = if form(core, f, y) { s } else { 0 };
            remainder.push(y ^ gain_f ^ gain_s);
        }
    }
    let mut vectors = vec![s, f ^ s];
    vectors.extend(simplex(core, &remainder)?.iter().map(|v| v ^ f));
    Some(vectors)
}

/// The first check of the candidate, on coefficients.
fn valid(core: &[u64], (vectors, relation): &Family) -> bool {
    let d = core.len();
    let odd = relation.iter().filter(|&&bit| bit).count() % 2 == 1;
    let narrow = vectors.iter().all(|&v| d == 64 || v >> d == 0);
    let unit_lower = (0..vectors.len()).all(|i| {
        (i..vectors.len()).all(|j| (form(core, vectors[i], vectors[j]) ^ (relation[i] && relation[j])) == (i == j))
    });
    let sum = vectors.iter().zip(relation).filter(|(_, &bit)| bit).fold(0, |sum, (v, _)| sum ^ v);
    vectors.len() == d + 1 && relation.len() == d + 1 && odd && narrow && unit_lower && sum == 0 && rank(vectors) == d
}

fn bordered(n: usize, action: &[u64], basis: &[u64], core: &[u64]) -> Option<Vec<u64>> {
    let units: Vec<u64> = (0..core.len()).map(|k| 1 << k).collect();
    let family = bordered_family(core, &units).filter(|family| valid(core, family))?;
    let list: Vec<u64> = family.0.iter().map(|&c| times(c, basis)).collect();
    let fits = list.len() == basis.len() + 1 && list.iter().all(|&v| v != 0 && v & !crate::words::mask(n) == 0);
    (fits && product(n, &list) == action).then_some(list)
}

/// The list and the looks, or the refusal, 6; what failed is in the memory, which is empty before. That a bordered candidate passes
/// its checks is a theorem, and one that does not stops the comparison.
pub fn minimal_list(n: usize, action: &[u64], budget: u64, memory: &mut Memory) -> Result<(Vec<u64>, u64), u64> {
    let (basis, core) = core_of(n, action);
    let units: Vec<u64> = (0..core.len()).map(|k| 1 << k).collect();
    let mut search = Search { core: &core, budget, looks: 0, memory };
    let list = match search.space(&units) {
        Err(Spent) => return Err(6),
        Ok(Some(picks)) => picks.iter().map(|&p| times(p, &basis)).collect(),
        Ok(None) => bordered(n, action, &basis, &core).expect("a bordered candidate that passes both checks"),
    };
    Ok((list, search.looks))
}
