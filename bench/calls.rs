//! Microseconds of whole calls, minimal, greedy and fixed space, beside the Rust source where it is at hand: on the same layers,
//! in one process, the two sides in turn. Both sides' lists and fixed spaces are compared before they are timed. The choice from
//! two long lists, which the source does not have, is timed beside plain Rust, the self-inverse call beside the minimal one. Looks
//! are counted with memories lent, too.
use std::time::Instant;

mod clock;
mod echoes;
mod families;
mod layers;
mod ours;
mod remembered;
mod shorter;
mod source;

use clock::Clock;
use families::FAMILIES;
use source::Source;

const BUDGET: u64 = 1_000_000;
const LAYERS: usize = 8;
const ROUNDS: usize = 25;

/// A layer whose search stays within the budget, with what its calls answer.
struct Layer {
    n: usize,
    rows: Vec<u64>,
    source: Option<Source>,
    looks: u64,
    draws: u64,
}

/// Whether the members of a basis are as many as those of a reduced one, and sums of them.
fn same_space(basis: &[u64], reduced: &[u64]) -> bool {
    let without = |v: u64, r: &u64| if v & r & r.wrapping_neg() == 0 { v } else { v ^ r };
    basis.len() == reduced.len() && basis.iter().all(|&v| reduced.iter().fold(v, without) == 0)
}

/// The layer of these rows; none where its search is spent.
fn layer(n: usize, rows: Vec<u64>) -> Option<Layer> {
    let mut out = [0; ours::ROOM];
    let (number, count, looks) = ours::minimal(n, &rows, BUDGET, &mut out);
    if number == 6 {
        return None;
    }
    assert_eq!(number, 0, "the minimal call is refused");
    let source = Source::of(n, &rows);
    let mut draws = 0;
    if let Some(s) = &source {
        let (list, drawn) = s.minimal_list();
        assert_eq!(list, out[..count], "the minimal lists differ");
        draws = drawn;
    }
    let (number, count) = ours::greedy(n, &rows, &mut out);
    assert_eq!(number, 0, "the greedy call is refused");
    if let Some(s) = &source {
        assert_eq!(s.greedy_list(), out[..count], "the greedy lists differ");
    }
    let (number, count) = ours::fixed_space(n, &rows, &mut out);
    assert_eq!(number, 0, "the fixed space call is refused");
    if let Some(s) = &source {
        assert!(same_space(&s.fixed_list(), &out[..count]), "the fixed spaces differ");
    }
    Some(Layer { n, rows, source, looks, draws })
}

/// The clocks of a layer: ours, the source's, and the source's other figure (the signed call; the stand-in's part).
type Clocks = [Clock; 3];

fn minimal_sample(layer: &Layer, clocks: &mut Clocks) {
    let mut out = [0; ours::ROOM];
    clocks[0].sample(|| ours::minimal(layer.n, &layer.rows, BUDGET, &mut out));
    if let Some(s) = &layer.source {
        clocks[1].sample(|| s.minimal());
        clocks[2].sample(|| s.signed());
    }
}

fn greedy_sample(layer: &Layer, clocks: &mut Clocks) {
    let mut out = [0; ours::ROOM];
    clocks[0].sample(|| ours::greedy(layer.n, &layer.rows, &mut out));
    if let Some(s) = &layer.source {
        clocks[1].sample(|| s.greedy());
        clocks[2].sample(|| s.preimages());
    }
}

fn fixed_sample(layer: &Layer, clocks: &mut Clocks) {
    let mut out = [0; ours::ROOM];
    clocks[0].sample(|| ours::fixed_space(layer.n, &layer.rows, &mut out));
    if let Some(s) = &layer.source {
        clocks[1].sample(|| s.fixed_space());
        clocks[2].sample(|| s.kernel());
    }
}

/// Times each layer in turn, round after round, for at most some seconds.
fn timed(of: &[Layer], sample: fn(&Layer, &mut Clocks)) -> Vec<Clocks> {
    let mut clocks: Vec<Clocks> = of.iter().map(|_| [Clock::new(), Clock::new(), Clock::new()]).collect();
    let start = Instant::now();
    for _ in 0..ROUNDS {
        for (layer, c) in of.iter().zip(&mut clocks) {
            sample(layer, c);
        }
        if start.elapsed().as_secs() >= 5 {
            break;
        }
    }
    clocks
}

fn mean(clocks: &[Clocks], side: usize) -> f64 {
    clocks.iter().map(|c| c[side].best).sum::<f64>() / clocks.len() as f64
}

fn worst(clocks: &[Clocks]) -> f64 {
    clocks.iter().map(|c| c[0].best / c[1].best).fold(0.0, f64::max)
}

/// The columns that all tables have, and our mean time.
fn common(name: &str, n: usize, clocks: &[Clocks], above: Option<f64>, known: bool) -> (String, f64) {
    let ours = mean(clocks, 0);
    let of_source = |text: String| if known { text } else { "-".into() };
    let line = format!(
        "{:>13}{:>8}  {:<11}{:>9.1}{:>9}{:>10}{:>8}",
        of_source(format!("{:.2}", ours / mean(clocks, 1))),
        of_source(format!("{:.2}", worst(clocks))),
        format!("{name} {n}"),
        ours,
        of_source(format!("{:.1}", mean(clocks, 1))),
        of_source(format!("{:.1}", mean(clocks, 2))),
        above.map_or("".into(), |a| format!("x {:.1}", ours / a)),
    );
    (line, ours)
}

/// Layers of a family, and how many seeds were passed over because their search is spent.
fn chosen(n: usize, rows: fn(usize, u64) -> Vec<u64>) -> (Vec<Layer>, usize) {
    let mut found = Vec::new();
    let mut passed = 0;
    for seed in 1.. {
        match layer(n, rows(n, seed)) {
            Some(l) => found.push(l),
            None => passed += 1,
        }
        if found.len() == LAYERS {
            break;
        }
    }
    (found, passed)
}

fn minimal_table(all: &[(&str, usize, Vec<Layer>, usize)]) {
    println!("the minimal call; source: minimal_decomposition alone; signed: the source's call with phases and Pauli correction; draws: the source's looks");
    println!(
        "{:>13}{:>8}  {:<11}{:>9}{:>9}{:>10}{:>8}{:>9}{:>9}{:>12}{:>12}{:>7}",
        "ours / source", "worst", "layers", "ours", "source", "signed", "growth", "looks", "draws", "M looks/s", "M draws/s", "spent"
    );
    let mut above: Option<(&str, f64)> = None;
    for (name, n, of, passed) in all {
        let clocks = timed(of, minimal_sample);
        let known = of[0].source.is_some();
        let before = above.filter(|a| a.0 == *name).map(|a| a.1);
        let (line, micros) = common(name, *n, &clocks, before, known);
        let looks = of.iter().map(|l| l.looks).sum::<u64>() as f64 / of.len() as f64;
        let draws = of.iter().map(|l| l.draws).sum::<u64>() as f64 / of.len() as f64;
        let rate = |count: f64, micros: f64| if count > 0.0 { format!("{:.1}", count / micros) } else { "-".into() };
        let (rate, theirs) = (rate(looks, micros), rate(draws, mean(&clocks, 1)));
        let draws = if known { format!("{draws:.0}") } else { "-".into() };
        println!("{line}{looks:>9.0}{draws:>9}{rate:>12}{theirs:>12}{passed:>7}");
        above = Some((*name, micros));
    }
}

fn table(title: &str, all: &[(&str, usize, Vec<Layer>, usize)], sample: fn(&Layer, &mut Clocks)) {
    println!("{title}");
    println!(
        "{:>13}{:>8}  {:<11}{:>9}{:>9}{:>10}{:>8}",
        "ours / source", "worst", "layers", "ours", "source", "stand-in", "growth"
    );
    let mut above: Option<(&str, f64)> = None;
    for (name, n, of, _) in all {
        let clocks = timed(of, sample);
        let before = above.filter(|a| a.0 == *name).map(|a| a.1);
        let (line, micros) = common(name, *n, &clocks, before, of[0].source.is_some());
        println!("{}", line.trim_end());
        above = Some((*name, micros));
    }
}

fn main() {
    let mut all = Vec::new();
    for (name, widths, rows) in FAMILIES {
        for &n in widths {
            let (of, passed) = chosen(n, rows);
            all.push((name, n, of, passed));
        }
    }
    println!(
        "microseconds a call: the mean of {LAYERS} layers, of each the best of {ROUNDS} samples, ours and the source in turn"
    );
    println!("worst: the highest ratio of one layer; growth: our time over that of the row above");
    if all[0].2[0].source.is_none() {
        println!("the Rust source is not at hand");
    }
    minimal_table(&all);
    let greedy = "the greedy call; source: clifford_to_transvections; stand-in: its part that is not the source's code";
    table(greedy, &all, greedy_sample);
    let fixed = "the fixed space; source: clifford_fixed_space; stand-in: its parts that are not the source's code, the elimination among them";
    table(fixed, &all, fixed_sample);
    echoes::table();
    shorter::table();
    remembered::table();
}
