//! Two lists to choose from: made from those of an action, so that the reply is known, and every two short ones on one qubit.
use crate::check::Checker;
use crate::layers::Random;
use crate::library::{Question, Seen};
use crate::words::{identity, mask, pairing, symplectic, times};

/// What a call gave: the list that is chosen, 1 or 2, or the refusal.
pub fn reply(seen: &Seen) -> u64 {
    if seen.number == 0 {
        seen.chosen
    } else {
        seen.number
    }
}

/// The product from the last turn back: a turn of v put in front adds the image of v to the rows of all basis vectors that
/// pair with v.
fn product_back(n: usize, list: &[u64]) -> Vec<u64> {
    let mut rows = identity(n);
    for &v in list.iter().rev() {
        let image = times(v, &rows);
        for k in (0..2 * n).filter(|k| v >> ((k + n) % (2 * n)) & 1 == 1) {
            rows[k] ^= image;
        }
    }
    rows
}

/// What keeps a reply on a symplectic action from being right, by facts alone.
pub fn flaw(question: &Question, reply: u64) -> Option<&'static str> {
    let (n, [first, second]) = (question.n as usize, &question.lists);
    let matches = |list: &[u64]| list.iter().all(|v| v & !mask(n) == 0) && product_back(n, list) == question.words;
    let (chosen, other, other_first) = match reply {
        1 => (first, second, second.len() < first.len()),
        2 => (second, first, first.len() <= second.len()),
        14 => return (matches(first) || matches(second)).then_some("14, and a list matches"),
        _ => return Some("neither a list nor 14"),
    };
    if !matches(chosen) {
        Some("the chosen list does not match")
    } else if other_first && matches(other) {
        Some("the other list is to be chosen")
    } else {
        None
    }
}

/// Lists on n qubits made from other lists; how they are made goes by the index.
pub struct Maker {
    n: usize,
    index: u64,
    random: Random,
}

impl Maker {
    pub fn new(n: usize, index: u64) -> Maker {
        Maker { n, index, random: Random(index) }
    }

    /// Pairs from the minimal and the greedy list of an action, and the reply that each must get.
    pub fn pairs(&mut self, minimal: &[u64], greedy: &[u64]) -> Vec<(Vec<u64>, Vec<u64>, u64)> {
        let (a, b) = (|| minimal.to_vec(), || greedy.to_vec());
        let wrong = self.spoiled(minimal);
        let first_if = |first: bool| if first { 1 } else { 2 };
        let always = [
            (a(), b(), 1),
            (b(), a(), first_if(greedy.len() == minimal.len())),
            (wrong.clone(), self.spoiled(greedy), 14),
        ];
        let in_turn = match self.index % 2 {
            0 => [(wrong, b(), 2), (a(), a(), 1), (self.exchanged(minimal), a(), 1), (self.with_zero(minimal), a(), 2)],
            _ => [
                (b(), wrong, 1),
                (a(), self.with_zero(minimal), 1),
                (self.with_pair(minimal), self.with_pair(minimal), 1),
                (Vec::new(), a(), first_if(minimal.is_empty())),
            ],
        };
        always.into_iter().chain(in_turn).collect()
    }

    /// A list that has no zero vector, changed in one place: it does not match what it matched.
    pub fn spoiled(&mut self, list: &[u64]) -> Vec<u64> {
        let (n, mut list) = (self.n, list.to_vec());
        let (some, wide) = (!list.is_empty(), n < 32);
        let place = self.random.below(list.len().max(1));
        self.index += 1;
        match self.index % 7 {
            0 if some && n > 0 => list[place] ^= 1 << self.random.below(2 * n),
            1 if some => list.truncate(list.len() - 1),
            2 if some => list[place] = 0,
            3 if some && wide => list[place] |= 1 << (2 * n),
            4 if some && wide => list[place] |= 1 << 63,
            5 if wide => list.insert(place, self.random.word() & !mask(n) | 1 << 63),
            _ => list.insert(place, if n == 0 { 1 } else { 1 << self.random.below(2 * n) }),
        }
        list
    }

    /// A list of the same product and length: two turns v, w that follow each other become w and v's image by w's turn.
    fn exchanged(&mut self, list: &[u64]) -> Vec<u64> {
        let mut list = list.to_vec();
        if list.len() > 1 {
            let k = self.random.below(list.len() - 1);
            let (v, w) = (list[k], list[k + 1]);
            list[k] = w;
            list[k + 1] = if pairing(self.n, v, w) { v ^ w } else { v };
        }
        list
    }

    fn with_zero(&mut self, list: &[u64]) -> Vec<u64> {
        let mut list = list.to_vec();
        list.insert(self.random.below(list.len() + 1), 0);
        list
    }

    /// One turn twice, which changes nothing.
    fn with_pair(&mut self, list: &[u64]) -> Vec<u64> {
        let v = self.random.vector(self.n);
        let place = self.random.below(list.len() + 1);
        [&list[..place], &[v, v], &list[place..]].concat()
    }
}

/// Every list of up to two of the vectors.
fn short_lists(vectors: &[u64]) -> Vec<Vec<u64>> {
    let ones = vectors.iter().map(|&v| vec![v]);
    let twos = vectors.iter().flat_map(|&v| vectors.iter().map(move |&w| vec![v, w]));
    std::iter::once(Vec::new()).chain(ones).chain(twos).collect()
}

/// Every pair of such lists beside every matrix on 0 and 1 qubits; the vectors have high bits too.
pub fn every_pair(check: &mut Checker) {
    for (n, vectors) in [(0, &[0, 1, 1 << 63][..]), (1, &[0, 1, 2, 3, 4, 7, 1 << 63 | 2])] {
        let (lists, values) = (short_lists(vectors), 1u64 << (2 * n));
        for code in 0..values.pow(2 * n as u32) {
            let rows: Vec<u64> = (0..2 * n as u32).map(|k| code / values.pow(k) % values).collect();
            for (first, second) in lists.iter().flat_map(|first| lists.iter().map(move |second| (first, second))) {
                let question = Question::of_lists(n as u64, &rows, first, second);
                let seen = check.call("every pair of lists", &question);
                let wrong = if symplectic(n, &rows) { flaw(&question, reply(&seen)) } else { None };
                check.require(wrong.is_none(), &question, wrong.unwrap_or_default());
            }
        }
    }
}
