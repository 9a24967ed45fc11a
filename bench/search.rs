//! Looks a second of the proved search, of the same search in plain Rust and in Rust with its memory laid out beforehand, and,
//! where it is at hand, of the reference model, on the same inputs in one run. Then what a look takes where a memory of dead ends
//! is lent, beside what it takes without.
use std::process::Command;
use std::time::Instant;

mod plain;
mod tuned;

const ROUNDS: usize = 12;
/// Dead ends that a memory has room for.
const ENTRIES: usize = 4_096;

extern "C" {
    fn search_core(core: *const u64, rows: usize, budget: u64, memory: *mut u64, memory_len: usize) -> u64;
}

fn proved(core: &[u64], budget: u64) -> u64 {
    unsafe { search_core(core.as_ptr(), core.len(), budget, std::ptr::null_mut(), 0) }
}

fn remembering(core: &[u64], budget: u64, memory: &mut [u64]) -> u64 {
    unsafe { search_core(core.as_ptr(), core.len(), budget, memory.as_mut_ptr(), memory.len()) }
}

/// Alternating but for the last diagonal entry: half of all draws come before one is accepted.
fn scan(d: usize) -> Vec<u64> {
    let mut e: Vec<u64> = (0..d).map(|i| 1u64 << (i ^ 1)).collect();
    e[d - 1] |= 1 << (d - 1);
    e
}

/// Sums of the smallest form that is neither alternating nor triangular in any basis: dead ends only.
fn dead(d: usize) -> Vec<u64> {
    (0..d).map(|i| [10u64, 4, 2, 1][i % 4] << (i / 4 * 4)).collect()
}

/// A search: the looks that it draws on a core under a budget.
type Search = fn(&[u64], u64) -> u64;

/// Repeats a search until so many looks are drawn; millions of them a second.
fn rate(mut search: impl FnMut(&[u64], u64) -> u64, core: &[u64], wanted: u64) -> f64 {
    let start = Instant::now();
    let mut total = 0;
    while total < wanted {
        total += search(core, wanted - total).max(1);
    }
    total as f64 / start.elapsed().as_secs_f64() / 1e6
}

/// The best rate of each search; they take turns.
fn rates(searches: [Search; 3], core: &[u64], wanted: u64) -> [f64; 3] {
    let mut best = [0.0f64; 3];
    for _ in 0..ROUNDS {
        for (search, best) in searches.iter().zip(&mut best) {
            *best = best.max(rate(*search, core, wanted));
        }
    }
    best
}

/// The model's own rates, by the name of the case ("scan 32").
fn model_rates(model: &str) -> Vec<(String, f64)> {
    let out = Command::new(model).arg("bench").output().map(|o| o.stdout).unwrap_or_default();
    String::from_utf8_lossy(&out)
        .lines()
        .filter(|l| l.contains("fast"))
        .filter_map(|l| {
            let kind = l.split_whitespace().nth(1)?;
            let d: String = l.split("d=").nth(1)?.trim_start().chars().take_while(|c| c.is_ascii_digit()).collect();
            let r = l.rsplit(',').next()?.trim().split(' ').next()?.parse().ok()?;
            Some((format!("{kind} {d}"), r))
        })
        .collect()
}

/// Nanoseconds a look where dead ends are kept, and where they are not; the two take turns.
fn memory_table() {
    const WANTED: u64 = 500_000;
    let mut memory = vec![0; 65 * ENTRIES];
    println!("nanoseconds a look on dead ends, with {ENTRIES} entries of memory and with none; looks: of one search, at most {WANTED}");
    println!("{:<10}{:>8}{:>8}{:>14}{:>12}{:>12}", "search", "memory", "none", "memory / none", "looks", "looks, none");
    for d in [8, 16, 32] {
        let core = dead(d);
        let (kept, looks) = (remembering(&core, WANTED, &mut memory), proved(&core, WANTED));
        assert!(kept <= looks, "more looks with a memory than without");
        let mut best = [0.0f64; 2];
        for _ in 0..3 {
            best[0] = best[0].max(rate(|core, budget| remembering(core, budget, &mut memory), &core, WANTED));
            best[1] = best[1].max(rate(proved, &core, WANTED));
        }
        let [with, none] = best.map(|rate| 1e3 / rate);
        println!("{:<10}{with:>8.1}{none:>8.1}{:>14.1}{kept:>12}{looks:>12}", format!("dead {d}"), with / none);
    }
}

fn main() {
    let bin = std::env::args().nth(1).unwrap_or_default();
    let cases = [("scan", 32usize, 60_000_000u64), ("scan", 64, 60_000_000), ("dead", 8, 4_000_000), ("dead", 16, 4_000_000), ("dead", 32, 4_000_000)];
    let model = model_rates(&format!("{bin}/model"));
    println!("million looks a second; ours / plain is our time over that of the plain Rust");
    println!("{:<10}{:>8}{:>8}{:>8}{:>8}{:>14}{:>14}{:>15}", "search", "proved", "plain", "tuned", "model", "ours / plain", "ours / tuned", "plain / model");
    for (kind, d, wanted) in cases {
        let core = if kind == "scan" { scan(d) } else { dead(d) };
        assert_eq!(proved(&core, 100_000), plain::looks(&core, 100_000));
        assert_eq!(proved(&core, 100_000), tuned::looks(&core, 100_000));
        let [ours, rust, best] = rates([proved, plain::looks, tuned::looks], &core, wanted);
        let name = format!("{kind} {d}");
        let theirs = model.iter().find(|m| m.0 == name).map(|m| m.1);
        println!(
            "{:<10}{:>8.1}{:>8.1}{:>8.1}{:>8}{:>14.2}{:>14.2}{:>15}",
            name,
            ours,
            rust,
            best,
            theirs.map_or("-".into(), |m| format!("{m:.1}")),
            rust / ours,
            best / ours,
            theirs.map_or("-".into(), |m| format!("rate {:.2}", rust / m))
        );
    }
    println!();
    memory_table();
}
