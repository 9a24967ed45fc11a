//! Microseconds of the self-inverse call beside those of the minimal call: on the same self-inverse layers, in turn. How many of
//! them the minimal call is spent on, and what the self-inverse call takes there.
use std::time::Instant;

use crate::clock::Clock;
use crate::layers::{self, Random};
use crate::{ours, BUDGET, ROUNDS};

const LAYERS: u64 = 32;
const WIDTHS: [usize; 4] = [4, 8, 16, 32];

/// A kind of layer: its name, its turns for a seed, and whether they are seen through a change of basis.
type Kind = (&'static str, fn(usize, u64) -> Vec<u64>, bool);

const KINDS: [Kind; 6] = [
    ("commuting", commuting, false),
    ("commuting, changed", commuting, true),
    ("swaps", swaps, false),
    ("swaps, changed", swaps, true),
    ("swaps and S", swaps_and_s, false),
    ("swaps and S, changed", swaps_and_s, true),
];

/// The vectors of n turns, which have I or one and the same letter on a qubit.
fn commuting(n: usize, seed: u64) -> Vec<u64> {
    let mut random = Random(seed);
    let letters: Vec<u64> = (0..n).map(|q| [1, 1 << n, 1 | 1 << n][random.below(3) as usize] << q).collect();
    let mut vector = || letters.iter().filter(|_| random.below(2) == 0).sum();
    (0..n).map(|_| vector()).collect()
}

/// The turns of SWAPs of the qubits two by two: X, Y and Z on both.
fn swaps(n: usize, seed: u64) -> Vec<u64> {
    let gates = layers::swaps(n, seed);
    let both = |gate: &[u8]| 1u64 << gate[1] | 1 << gate[2];
    gates.chunks_exact(3).map(both).flat_map(|x| [x, x | x << n, x << n]).collect()
}

/// The same, with an S, the turn of Z, on one qubit of the last pair in the place of their SWAP.
fn swaps_and_s(n: usize, seed: u64) -> Vec<u64> {
    let mut turns = swaps(n, seed);
    let z = turns.split_off(turns.len() - 3)[2];
    turns.push(z & z.wrapping_neg());
    turns
}

/// The rows of the product of a list.
fn product(n: usize, list: &[u64]) -> Vec<u64> {
    let mut out = [0; ours::ROOM];
    assert_eq!(ours::rebuild(n, list, &mut out), (0, 2 * n), "the rebuild is refused");
    out[..2 * n].to_vec()
}

/// The list through a change of basis, the product of 4n random turns.
fn changed(n: usize, seed: u64, list: &[u64]) -> Vec<u64> {
    let mut random = Random(!seed);
    let turns: Vec<u64> = (0..4 * n).map(|_| random.word() >> (64 - 2 * n)).collect();
    let change = product(n, &turns);
    let image = |v: &u64| (0..2 * n).filter(|k| v >> k & 1 == 1).fold(0, |sum, k| sum ^ change[k]);
    list.iter().map(image).collect()
}

/// A layer, and the best times of the self-inverse and of the minimal call; none of a minimal call that is spent.
struct Layer {
    rows: Vec<u64>,
    clocks: [Clock; 2],
    spent: bool,
}

/// The layer of a list; the lists of both calls play it and are equally long.
fn layer(n: usize, list: &[u64]) -> Layer {
    let rows = product(n, list);
    let mut out = [0; ours::ROOM];
    let (number, length) = ours::self_inverse(n, &rows, &mut out);
    assert_eq!(number, 0, "the self-inverse call is refused");
    assert_eq!(product(n, &out[..length]), rows, "the self-inverse call's list plays another layer");
    let (number, least, _) = ours::minimal(n, &rows, BUDGET, &mut out);
    assert!(number == 6 || (number, least) == (0, length), "the minimal call's list is of another length");
    Layer { rows, clocks: [Clock::new(), Clock::new()], spent: number == 6 }
}

/// Times each layer in turn, round after round, for at most some seconds.
fn time(n: usize, of: &mut [Layer]) {
    let mut out = [0; ours::ROOM];
    let start = Instant::now();
    for _ in 0..ROUNDS {
        for Layer { rows, clocks: [without, with], spent } in of.iter_mut() {
            without.sample(|| ours::self_inverse(n, rows, &mut out));
            if !*spent {
                with.sample(|| ours::minimal(n, rows, BUDGET, &mut out));
            }
        }
        if start.elapsed().as_secs() >= 10 {
            break;
        }
    }
}

/// The median of some times; none of none.
fn median(times: impl Iterator<Item = f64>) -> Option<f64> {
    let mut times: Vec<f64> = times.collect();
    times.sort_by(f64::total_cmp);
    times.get(times.len() / 2).copied()
}

fn line(name: &str, n: usize, of: &[Layer]) {
    let (spent, answered): (Vec<&Layer>, Vec<&Layer>) = of.iter().partition(|l| l.spent);
    let medians = [0, 1].map(|side| median(answered.iter().map(|l| l.clocks[side].best)));
    let there = median(spent.iter().map(|l| l.clocks[0].best));
    let ratio = medians[0].zip(medians[1]).map(|(ours, minimal)| ours / minimal);
    let worst = answered.iter().map(|l| l.clocks[0].best / l.clocks[1].best).reduce(f64::max);
    let [ratio, worst, ours, minimal, there] =
        [ratio, worst, medians[0], medians[1], there].map(|figure| figure.map_or("-".into(), |f| format!("{f:.2}")));
    let name = format!("{name} {n}");
    println!("{ratio:>14}{worst:>8}  {name:<24}{ours:>9}{minimal:>9}{:>7}{there:>12}", spent.len());
}

pub fn table() {
    println!("the self-inverse call beside the minimal call, microseconds: medians over those of {LAYERS} layers on which the minimal call is not spent, of each the best of {ROUNDS} samples, in turn");
    println!("worst: the highest ratio of one layer; spent: layers on which the minimal call is, at {BUDGET} looks; ours there: the self-inverse call on these");
    println!(
        "{:>14}{:>8}  {:<24}{:>9}{:>9}{:>7}{:>12}",
        "ours / minimal", "worst", "layers", "ours", "minimal", "spent", "ours there"
    );
    for (name, turns, through) in KINDS {
        for n in WIDTHS {
            let lists = (1..=LAYERS).map(|seed| (seed, turns(n, seed)));
            let lists = lists.map(|(seed, list)| if through { changed(n, seed, &list) } else { list });
            let mut of: Vec<Layer> = lists.map(|list| layer(n, &list)).collect();
            time(n, &mut of);
            line(name, n, &of);
        }
    }
}
