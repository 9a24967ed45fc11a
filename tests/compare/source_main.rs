//! What the Rust source says of each action: the two lists, the visits of its search and its basis of the fixed space. Reads lines
//! `n row0 .. row(2n-1)`, n decimal and rows hexadecimal. tests/compare/run builds it as a program of the crate `oracle`.
use std::io::{BufRead, BufWriter, Write};

fn hexadecimal(words: &[u128]) -> String {
    words.iter().map(|word| format!(" {word:x}")).collect()
}

fn main() -> std::io::Result<()> {
    let mut out = BufWriter::new(std::io::stdout());
    for line in std::io::stdin().lock().lines() {
        let line = line?;
        let mut parts = line.split_whitespace();
        let n: usize = parts.next().and_then(|part| part.parse().ok()).expect("a qubit count");
        let rows: Vec<u128> = parts.map(|part| u128::from_str_radix(part, 16).expect("a row")).collect();
        oracle::reset_counters();
        writeln!(out, "min:{}", hexadecimal(&oracle::min_list(n, &rows)))?;
        writeln!(out, "visits: {}", oracle::visits())?;
        writeln!(out, "greedy:{}", hexadecimal(&oracle::greedy_list(n, &rows)))?;
        writeln!(out, "fixed:{}", hexadecimal(&oracle::fixed_space(n, &rows)))?;
    }
    out.flush()
}
