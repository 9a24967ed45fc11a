//! The same lists and fixed spaces from the Rust source, where its program (source_main.rs) is at hand.
use crate::fixed::reduced;
use std::fs::File;
use std::io::{BufRead, BufReader, BufWriter, Write};
use std::process::{Command, Stdio};

/// An action, and the lists and the fixed space that the library gave for it; of the lists that of a self-inverse one if it is.
pub struct Listed {
    pub n: usize,
    pub rows: Vec<u64>,
    pub minimal: Vec<u64>,
    pub looks: u64,
    pub greedy: Vec<u64>,
    pub fixed: Vec<u64>,
    pub self_inverse: Option<Vec<u64>>,
}

fn hexadecimal(words: &[u64]) -> String {
    words.iter().map(|word| format!(" {word:x}")).collect()
}

/// The words after a name; none where the line is another.
fn read(line: &str, name: &str) -> Option<Vec<u64>> {
    line.strip_prefix(name)?.split_whitespace().map(|word| u64::from_str_radix(word, 16).ok()).collect()
}

/// The visits of the source, which passes over known failures, are no more than the looks. Its basis of the fixed space may be
/// another one of the same space. The list of a self-inverse action has as many turns as its minimal one.
pub fn agrees(listed: &Listed, [minimal, visits, greedy, fixed]: &[String; 4]) -> bool {
    let visits = visits.strip_prefix("visits: ").and_then(|text| text.parse::<u64>().ok());
    let as_long = |list: &Vec<u64>| read(minimal, "min:").is_some_and(|least| least.len() == list.len());
    let same_space = |basis: Vec<u64>| basis.len() == listed.fixed.len() && reduced(&basis) == listed.fixed;
    *minimal == format!("min:{}", hexadecimal(&listed.minimal))
        && visits.is_some_and(|visits| visits <= listed.looks)
        && *greedy == format!("greedy:{}", hexadecimal(&listed.greedy))
        && read(fixed, "fixed:").is_some_and(same_space)
        && listed.self_inverse.as_ref().is_none_or(as_long)
}

/// Asks the program for every action; how many differ.
pub fn compare(program: &str, all: &[Listed]) -> std::io::Result<u64> {
    let path = format!("{program}.in");
    let mut input = BufWriter::new(File::create(&path)?);
    for listed in all {
        writeln!(input, "{}{}", listed.n, hexadecimal(&listed.rows))?;
    }
    input.flush()?;
    let mut child =
        Command::new(program).stdin(File::open(&path)?).stdout(Stdio::piped()).stderr(Stdio::null()).spawn()?;
    let mut lines = BufReader::new(child.stdout.take().expect("its output is piped")).lines();
    let mut differ = 0;
    for listed in all {
        let said = std::array::from_fn(|_| lines.next().and_then(Result::ok).unwrap_or_default());
        if !agrees(listed, &said) {
            differ += 1;
            if differ <= 3 {
                report(listed, &said);
            }
        }
    }
    child.wait()?;
    Ok(differ)
}

fn report(listed: &Listed, said: &[String; 4]) {
    let Listed { n, rows, minimal, looks, greedy, fixed, self_inverse } = listed;
    println!("differs from the source: n = {n}, rows {rows:x?}\n  source  {said:?}");
    println!("  library min {minimal:x?}, looks {looks}, greedy {greedy:x?}, fixed {fixed:x?}, self-inverse {self_inverse:x?}");
}
