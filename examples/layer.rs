//! A layer by its gates, its turn lists, the action rebuilt from each, its fixed space, the shorter list, three refusals, what
//! a memory saves, and a gate of a lab's own sheet. Run it by examples/run-rust.
#[allow(dead_code)] // not every gate is used here
mod turnlist;

use std::error::Error;
use turnlist::{Refusal, CX, H, SIX_GATES};

const N: u64 = 3;

/// Of the lab's sheet.
const ISWAP: u8 = 3;

/// Rows of an action whose search comes upon failed subspaces again.
const HARDER: [u64; 6] = [0x16, 0x1a, 0x2b, 0x07, 0x05, 0x04];

/// The vectors as letters, qubit 0 first.
fn letters(vectors: &[u64]) -> String {
    let letter = |v: u64, q: u64| ["I", "X", "Z", "Y"][(v >> q & 1 | (v >> (N + q) & 1) << 1) as usize];
    let words: Vec<String> = vectors.iter().map(|&v| (0..N).map(|q| letter(v, q)).collect()).collect();
    words.join(" ")
}

/// Whether the product of a list is the action.
fn compared(list: &[u64], action: &[u64]) -> Result<&'static str, Refusal> {
    Ok(if turnlist::rebuild(N, list)? == action { "the same action" } else { "another action" })
}

/// Loads the sheet of a file, and lists a gate of it; then a sheet that is refused.
fn lab(path: &str) -> Result<(), Box<dyn Error>> {
    let sheet = std::fs::read(path)?;
    let (in_force, reply) = turnlist::load_sheet(&sheet, &SIX_GATES);
    reply?;
    println!("the lab's own sheet: {} gates", in_force[0]);
    let turns = turnlist::minimal(N, &turnlist::gates(N, in_force, &[[ISWAP, 0, 1]])?, 1_000_000)?.turns;
    println!("its iSWAP on qubits 0 and 1, minimal: {} turns: {}", turns.len(), letters(&turns));
    let (in_force, reply) = turnlist::load_sheet(&sheet[..sheet.len() - 1], in_force);
    if let Err(refusal) = reply {
        println!("the sheet without its last byte: {refusal}");
    }
    println!("in force: {} bytes", in_force.len());
    Ok(())
}

fn main() -> Result<(), Box<dyn Error>> {
    let action = turnlist::gates(N, &SIX_GATES, &[[H, 0, 0], [CX, 1, 2]])?;
    println!("layer on {N} qubits: H 0, CX 1 2");

    let minimal = turnlist::minimal(N, &action, 1_000_000)?;
    println!("minimal: {} turns, {} looks: {}", minimal.turns.len(), minimal.looks, letters(&minimal.turns));
    println!("rebuilt from the minimal list: {}", compared(&minimal.turns, &action)?);

    let greedy = turnlist::greedy(N, &action)?;
    println!("greedy: {} turns: {}", greedy.len(), letters(&greedy));
    println!("rebuilt from the greedy list: {}", compared(&greedy, &action)?);

    // H and CX undo themselves, and here they are on different qubits
    let commuting = turnlist::self_inverse(N, &action)?;
    println!("self-inverse: {} turns that commute: {}", commuting.len(), letters(&commuting));
    println!("rebuilt from the self-inverse list: {}", compared(&commuting, &action)?);

    let fixed = turnlist::fixed_space(N, &action)?;
    println!("fixed space: {} vectors: {}", fixed.len(), letters(&fixed));

    let shorter = turnlist::shorter(N, &action, &greedy, &minimal.turns)?;
    println!("shorter of the greedy and the minimal list: {} turns: {}", shorter.len(), letters(shorter));

    let [first, second] = [&greedy, &minimal.turns].map(|list| &list[..list.len() - 1]);
    if let Err(refusal) = turnlist::shorter(N, &action, first, second) {
        println!("with the last turn of each left off: {refusal}");
    }

    if let Err(refusal) = turnlist::minimal(N, &action, minimal.looks - 1) {
        println!("minimal with one look too few: {refusal}");
    }

    let looks = turnlist::minimal(N, &HARDER, 1_000_000)?.looks;
    let mut memory = [0; 16 * turnlist::ENTRY_WORDS];
    let fewer = turnlist::minimal_remembering(N, &HARDER, 1_000_000, &mut memory)?.looks;
    println!("a harder layer: {looks} looks, with a memory of 16 failed subspaces {fewer}");

    if let Err(refusal) = turnlist::self_inverse(N, &HARDER) {
        println!("as a self-inverse layer: {refusal}");
    }
    std::env::args().nth(1).map_or(Ok(()), |path| lab(&path))
}
