//! Self-inverse layers: turns that commute, SWAPs, CX and CZ, and gates side by side, as they are and through a change of basis.
//! Then layers that are not self-inverse by one qubit or one turn only, and the order of the call's questions.
use crate::actions::Sample;
use crate::check::Checker;
use crate::edges::plant;
use crate::layers::{on_qubits, Random};
use crate::library::{Call, Question};
use crate::source::Listed;
use crate::words::{identity, product, times};
use crate::CAP;

/// Turns on n qubits whose product is self-inverse.
type Kind = fn(&mut Random, usize) -> Vec<u64>;

pub const KINDS: [(Kind, &str); 4] = [
    (commuting, "commuting turns"),
    (swaps, "SWAP layers"),
    (controlled, "CX and CZ layers"),
    (beside, "gates side by side"),
];

const CX: [u64; 3] = [0b0100, 0b0110, 0b0010];
const CZ: [u64; 3] = [0b0100, 0b1100, 0b1000];
const SWAP: [u64; 3] = [0b0011, 0b1111, 0b1100];

fn moved(turns: &[u64], qubits: &[usize], n: usize) -> Vec<u64> {
    turns.iter().map(|&v| on_qubits(v, qubits, n)).collect()
}

/// Vectors that have I or one and the same letter on a qubit.
fn commuting(random: &mut Random, n: usize) -> Vec<u64> {
    let letters: Vec<u64> = (0..n).map(|q| on_qubits(1 + random.word() % 3, &[q], n)).collect();
    let count = random.below(n + 3);
    (0..count).map(|_| letters.iter().filter(|_| random.one_in(2)).sum()).collect()
}

/// SWAPs on disjoint pairs, one time in two on as many as there are.
fn swaps(random: &mut Random, n: usize) -> Vec<u64> {
    let order = random.shuffled(n);
    let pairs = if random.one_in(2) { n / 2 } else { random.below(n / 2 + 1) };
    order.chunks_exact(2).take(pairs).flat_map(|pair| moved(&SWAP, pair, n)).collect()
}

/// CX from some of the qubits to the others, and CZ among those.
fn controlled(random: &mut Random, n: usize) -> Vec<u64> {
    let order = random.shuffled(n);
    let (from, to) = order.split_at(random.below(n + 1));
    let mut list = Vec::new();
    for _ in 0..random.below(2 * n + 1) {
        if random.one_in(2) && !from.is_empty() && !to.is_empty() {
            list.extend(moved(&CX, &[from[random.below(from.len())], to[random.below(to.len())]], n));
        } else if from.len() > 1 {
            let a = random.below(from.len());
            let b = (a + 1 + random.below(from.len() - 1)) % from.len();
            list.extend(moved(&CZ, &[from[a], from[b]], n));
        }
    }
    list
}

/// A gate or none on each qubit.
fn beside(random: &mut Random, n: usize) -> Vec<u64> {
    let order = random.shuffled(n);
    let (mut left, mut list) = (&order[..], Vec::new());
    while !left.is_empty() {
        let turns = [&[][..], &[0b01], &[0b10], &[0b11], &CX, &CZ, &SWAP][random.below(7)];
        let (qubits, behind) = left.split_at(left.len().min(if turns.len() == 3 { 2 } else { 1 }));
        if turns.len() < 3 || qubits.len() == 2 {
            list.extend(moved(turns, qubits, n));
        }
        left = behind;
    }
    list
}

/// The list through a change of basis, the product of up to 4n random turns.
fn changed(random: &mut Random, n: usize, list: Vec<u64>) -> Vec<u64> {
    let turns: Vec<u64> = (0..random.below(4 * n + 1)).map(|_| random.vector(n)).collect();
    let change = product(n, &turns);
    list.iter().map(|&v| times(v, &change)).collect()
}

/// Turns of any kind, one time in two through a change of basis.
pub fn any(random: &mut Random, n: usize) -> Vec<u64> {
    let (kind, _) = KINDS[random.below(KINDS.len())];
    let list = kind(random, n);
    if random.one_in(2) {
        changed(random, n, list)
    } else {
        list
    }
}

/// Such turns on all qubits but one; on that one X goes to Y, Y to Z and Z to X, so that the product is not self-inverse.
pub fn one_off(random: &mut Random, n: usize, qubit: usize) -> Vec<u64> {
    let others: Vec<usize> = (0..n).filter(|q| *q != qubit).collect();
    let list = any(random, n - 1);
    [moved(&list, &others, n), moved(&[0b01, 0b10], &[qubit], n)].concat()
}

fn asked(n: usize, rows: &[u64], out: usize) -> Question {
    Question::of_words(Call::SelfInverse, n as u64, rows, out)
}

/// Layers of each kind on 0 to 32 qubits, every second one through a change of basis.
pub fn sampled(check: &mut Checker, random: &mut Random, samples: usize, listed: &mut Vec<Listed>) {
    for (n, (kind, family)) in (0..=32).flat_map(|n| KINDS.map(|kind| (n, kind))) {
        for k in 0..samples {
            let list = kind(random, n);
            let list = if k % 2 == 0 { list } else { changed(random, n, list) };
            let rows = product(n, &list);
            let sample = Sample { family, n, rows: &rows, spare: k % 4, cap: CAP };
            listed.extend(sample.compare(check));
        }
    }
}

/// Every output length up to some words more than are wanted.
pub fn lengths(check: &mut Checker, random: &mut Random) {
    for n in 0..=32usize {
        for out in 0..2 * n + 5 {
            let list = any(random, n);
            let question = asked(n, &product(n, &list), out);
            let number = check.call("self-inverse edges", &question).number;
            check.require(number == if out > 2 * n { 0 } else { 5 }, &question, "not by the words that are wanted");
        }
    }
}

/// One qubit that is not its own inverse among others that are, wherever it is; then with too few output words.
pub fn one_qubit(check: &mut Checker, random: &mut Random) {
    for (n, qubit) in (1..=32usize).flat_map(|n| (0..n).map(move |qubit| (n, qubit))) {
        let list = one_off(random, n, qubit);
        let rows = product(n, &list);
        for (out, wanted) in [(2 * n + 1 + random.below(3), 17), (random.below(2 * n + 1), 5)] {
            let question = asked(n, &rows, out);
            let number = check.call("self-inverse edges", &question).number;
            check.require(number == wanted, &question, "not the number of such a layer");
        }
    }
}

/// A self-inverse layer F and one turn of v more, which is self-inverse exactly if vF = v, as it is for u + uF.
pub fn one_turn(check: &mut Checker, random: &mut Random, samples: usize) {
    for k in 0..samples {
        let n = 1 + random.below(32);
        let (list, u) = (any(random, n), random.vector(n));
        let rows = product(n, &list);
        let v = if k % 2 == 0 { u } else { u ^ times(u, &rows) };
        let question = asked(n, &product(n, &[&list[..], &[v]].concat()), 2 * n + 1);
        let number = check.call("self-inverse edges", &question).number;
        check.require(number == if times(v, &rows) == v { 0 } else { 17 }, &question, "not by whether vF = v");
    }
}

/// Two basis vectors exchanged: its own inverse, but symplectic only where the two are those of one qubit.
pub fn exchanged(check: &mut Checker) {
    for (n, i) in (1..=32usize).flat_map(|n| (0..2 * n).map(move |i| (n, i))) {
        for j in 0..i {
            let mut rows = identity(n);
            rows.swap(i, j);
            let question = asked(n, &rows, if (i + j) % 2 == 0 { 0 } else { 2 * n + 1 });
            let number = check.call("self-inverse edges", &question).number;
            let wanted = match (i == j + n, question.out) {
                (false, _) => 4,
                (true, 0) => 5,
                (true, _) => 0,
            };
            check.require(number == wanted, &question, "not the number of such an exchange");
        }
    }
}

/// Several refusals at once, 17 among them: the first in the order of the questions is given.
pub fn several(check: &mut Checker, random: &mut Random, samples: usize) {
    for _ in 0..samples {
        let (n, bits) = (1 + random.below(32), random.word());
        let planted: Vec<u64> =
            [1, 2, 3, 4, 5, 17].into_iter().filter(|k| bits >> k & 1 == 1 && (*k != 3 || n < 32)).collect();
        let qubit = random.below(n);
        let list = if planted.contains(&17) { one_off(random, n, qubit) } else { any(random, n) };
        let mut rows = product(n, &list);
        let count = plant(random, n, &mut rows, &planted);
        let out = if planted.contains(&5) { random.below(2 * n + 1) } else { 2 * n + 1 + random.below(4) };
        let question = Question::of_words(Call::SelfInverse, count, &rows, out);
        let number = check.call("self-inverse edges", &question).number;
        let first = planted.first().copied().unwrap_or(0);
        check.require(number == first, &question, "not the first refusal");
    }
}
