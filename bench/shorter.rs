//! Milliseconds of the shorter of two long lists, and of the rebuild of one, beside plain Rust: on the same lists, in turn.
use std::time::Instant;

use crate::clock::Clock;
use crate::layers::Random;
use crate::{ours, ROUNDS};

const LENGTH: usize = 1_000_000;

/// The product of a list in plain Rust; none where a vector has a bit from 2n up.
fn product(n: usize, list: &[u64]) -> Option<Vec<u64>> {
    let inside = u64::MAX >> (64 - 2 * n);
    let mut rows: Vec<u64> = (0..2 * n).map(|k| 1 << k).collect();
    for &v in list {
        if v & !inside != 0 {
            return None;
        }
        let exchanged = v >> n | v << n & inside;
        for row in &mut rows {
            // a choice of words: a branch on a random parity takes six times as long
            *row ^= if (*row & exchanged).count_ones() % 2 == 1 { v } else { 0 };
        }
    }
    Some(rows)
}

/// Which list is chosen in plain Rust, 0 for neither; the longer one is multiplied out only if the shorter does not match.
fn plain(n: usize, rows: &[u64], first: &[u64], second: &[u64]) -> u64 {
    let mut order = [(1, first), (2, second)];
    order.sort_by_key(|(_, list)| list.len());
    order.into_iter().find(|(_, list)| product(n, list).is_some_and(|p| p == rows)).map_or(0, |(place, _)| place)
}

/// A line of the table: our best time and that of plain Rust, over as many vectors as are multiplied out.
fn line<O, P>(name: &str, vectors: usize, mut ours: impl FnMut() -> O, mut plain: impl FnMut() -> P) {
    let mut clocks = [Clock::new(), Clock::new()];
    let start = Instant::now();
    for _ in 0..ROUNDS {
        clocks[0].sample(&mut ours);
        clocks[1].sample(&mut plain);
        if start.elapsed().as_secs() >= 5 {
            break;
        }
    }
    let [ours, plain] = clocks.map(|c| c.best);
    let rate = |micros: f64| vectors as f64 / micros;
    println!(
        "{:>13.2}  {name:<11}{:>9.1}{:>9.1}{:>15.1}{:>15.1}",
        ours / plain,
        ours / 1e3,
        plain / 1e3,
        rate(ours),
        rate(plain)
    );
}

/// The lists at n qubits: one, it with a zero vector behind it, and it with one bit of its last vector changed.
fn lines(n: usize) {
    let mut random = Random(n as u64);
    let list: Vec<u64> = (0..LENGTH).map(|_| random.word() >> (64 - 2 * n)).collect();
    let longer = [&list[..], &[0]].concat();
    let mut wrong = list.clone();
    wrong[LENGTH - 1] ^= 1;
    let mut out = [0; ours::ROOM];
    let rows = product(n, &list).expect("each vector is below 2^(2n)");
    assert_eq!(ours::rebuild(n, &list, &mut out), (0, 2 * n), "the rebuild is refused");
    assert_eq!(rows, out[..2 * n], "the products differ");
    line(&format!("rebuild {n}"), LENGTH, || ours::rebuild(n, &list, &mut out), || product(n, &list));
    for (name, second, chosen, vectors) in [("one", &list, 2, LENGTH), ("both", &wrong, 1, 2 * LENGTH + 1)] {
        assert_eq!(ours::shorter(n, &rows, &longer, second), (0, chosen), "the other list is chosen");
        assert_eq!(plain(n, &rows, &longer, second), chosen, "the other list is chosen");
        let ours = || ours::shorter(n, &rows, &longer, second);
        line(&format!("{name} {n}"), vectors, ours, || plain(n, &rows, &longer, second));
    }
}

pub fn table() {
    println!("the shorter of two lists of {LENGTH} vectors, and the rebuild of one, milliseconds; plain: the same in plain Rust, in turn");
    println!("one: the shorter list matches; both: it does not, and the longer one is multiplied out too");
    println!("{:>13}  {:<11}{:>9}{:>9}{:>15}{:>15}", "ours / plain", "lists", "ours", "plain", "M vectors/s", "plain's");
    for n in [8, 32] {
        lines(n);
    }
}
