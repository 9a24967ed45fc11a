//! The looks of the minimal call with more and more memory lent, on the same layers; no times.
use crate::families::FAMILIES;
use crate::{ours, BUDGET};

const LAYERS: u64 = 8;
const ENTRIES: [usize; 4] = [0, 16, 256, 4_096];

/// The looks of a layer, those of a spent search too, and whether it is spent.
fn looks(n: usize, rows: &[u64], memory: &mut [u64]) -> (u64, bool) {
    match ours::remembering(n, rows, BUDGET, memory, &mut [0; ours::ROOM]) {
        (0, _, looks) => (looks, false),
        (6, _, _) => (BUDGET, true),
        (number, _, _) => panic!("the minimal call with a memory is refused: {number}"),
    }
}

/// The looks of all layers, and how many of them are spent, for each number of entries lent.
fn sums(n: usize, rows: fn(usize, u64) -> Vec<u64>, memory: &mut [u64]) -> [(u64, u64); 4] {
    let mut sums = [(0, 0); 4];
    for rows in (1..=LAYERS).map(|seed| rows(n, seed)) {
        for ((looks_sum, spent_sum), entries) in sums.iter_mut().zip(ENTRIES) {
            let (looks, spent) = looks(n, &rows, &mut memory[..ours::ENTRY * entries]);
            *looks_sum += looks;
            *spent_sum += u64::from(spent);
        }
    }
    assert!(sums.iter().all(|sum| sum.0 <= sums[0].0 && sum.1 <= sums[0].1), "more looks with a memory than without");
    sums
}

pub fn table() {
    println!(
        "looks of the minimal call with a memory: sums over {LAYERS} layers, those spent too, which take {BUDGET}"
    );
    println!("ratio: the looks with the most entries over those with none");
    print!("{:>7}  {:<11}", "ratio", "layers");
    ENTRIES.iter().for_each(|entries| print!("{:>18}", format!("{entries} entries")));
    println!();
    let mut memory = vec![0; ours::ENTRY * ENTRIES[3]];
    for (name, widths, rows) in FAMILIES {
        for &n in widths {
            let sums = sums(n, rows, &mut memory);
            let ratio = if sums[0].0 == 0 { "-".into() } else { format!("{:.3}", sums[3].0 as f64 / sums[0].0 as f64) };
            print!("{ratio:>7}  {:<11}", format!("{name} {n}"));
            for (looks, spent) in sums {
                let spent = if spent == 0 { String::new() } else { format!(", {spent} spent") };
                print!("{:>18}", format!("{looks}{spent}"));
            }
            println!();
        }
    }
}
