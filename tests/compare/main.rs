//! The library's nine calls beside an independent model, and beside the Rust source where its program is named.
//! Arguments: the source's program or `-`; the reference answers with a memory or `-`; then, if wanted, `three` (every action on
//! 3 qubits too), or `plant` and the number of a call whose count, choice, sheet's number or last memory word is to be damaged.
mod actions;
mod check;
mod echoes;
mod edges;
mod fixed;
mod layers;
mod library;
mod memory;
mod minimal;
mod model;
mod remembering;
mod self_inverse;
mod selftest;
mod selftest_memory;
mod selftest_self_inverse;
mod selftest_sheets;
mod sheet;
mod sheet_edges;
mod sheet_maker;
mod sheets;
mod shorter;
mod source;
mod vectors;
mod words;

use actions::Sample;
use check::Checker;
use layers::{all_actions, Family, Layers, Random, FAMILIES};
use library::{Call, Question};
use remembering::Summary;
use source::Listed;

/// The budget of the sampled searches.
const CAP: u64 = 20_000;
/// Actions of each family at each width.
const SAMPLES: usize = 150;

/// Every symplectic action on 0 to this many qubits.
fn every_action(check: &mut Checker, most: usize, listed: &mut Vec<Listed>) {
    for n in 0..=most {
        for (k, (rows, list)) in all_actions(n).iter().enumerate() {
            let sample = Sample { family: "every action", n, rows, spare: k % 3, cap: 1_000_000 };
            listed.extend(sample.compare(check));
            // the list by breadth is as short as any
            let question = Question::of_words(Call::SelfInverse, n as u64, rows, 2 * n + 1);
            let seen = check.call("every action", &question);
            check.require(seen.number != 0 || seen.list().len() == list.len(), &question, "not the least length");
        }
    }
}

/// Every matrix on 0 to 2 qubits, and many with high bits on 1.
fn every_matrix(check: &mut Checker) {
    for n in 0..=2usize {
        let values = 1u64 << (2 * n);
        for code in 0..values.pow(2 * n as u32) {
            let rows: Vec<u64> = (0..2 * n as u32).map(|k| code / values.pow(k) % values).collect();
            for call in [Call::Minimal { budget: 3 }, Call::Greedy, Call::FixedSpace, Call::SelfInverse] {
                check.call("every matrix", &Question::of_words(call, n as u64, &rows, 4 * n + 2));
            }
        }
    }
    for (a, b) in (0..64).flat_map(|a| (0..64).map(move |b| (a, b))) {
        let wide = |code: u64| code & 7 | (code >> 3 & 1) << 3 | (code >> 4 & 1) << 31 | (code >> 5) << 63;
        for call in [Call::Minimal { budget: 3 }, Call::FixedSpace, Call::SelfInverse] {
            check.call("every matrix", &Question::of_words(call, 1, &[wide(a), wide(b)], 3));
        }
    }
}

fn sampled(check: &mut Checker, layers: &mut Layers, listed: &mut Vec<Listed>) {
    for n in 3..=32 {
        for (family, name) in FAMILIES {
            for k in 0..SAMPLES {
                let rows = layers.action(family, n);
                let sample = Sample { family: name, n, rows: &rows, spare: k % 4, cap: CAP };
                listed.extend(sample.compare(check));
            }
        }
    }
}

/// Searches of up to a million looks.
fn deep(check: &mut Checker, layers: &mut Layers, listed: &mut Vec<Listed>) {
    for k in 0..240 {
        let n = 5 + k / 2 % 6;
        let rows = layers.action(if k % 2 == 0 { Family::Exceptional } else { Family::Permutation }, n);
        let sample = Sample { family: "deep searches", n, rows: &rows, spare: 0, cap: 1_000_000 };
        listed.extend(sample.compare(check));
    }
}

fn circuits(check: &mut Checker, layers: &mut Layers, listed: &mut Vec<Listed>) {
    for n in 1..=32 {
        for k in 0..SAMPLES {
            let gates = layers.random.below(if k % 2 == 0 { 8 } else { 20 * n });
            let bytes = edges::circuit(&mut layers.random, n, gates);
            let seen = check.call("gate circuits", &Question::of_gates(n as u64, &bytes, 2 * n));
            let sample = Sample { family: "gate circuits", n, rows: &seen.out, spare: 0, cap: CAP };
            listed.extend(sample.compare(check));
        }
    }
}

/// The edges, with as many random samples as are asked for.
fn all_edges(check: &mut Checker, layers: &mut Layers, samples: usize) {
    edges::lengths(check, layers);
    edges::list_lengths(check);
    edges::widths(check);
    edges::wide_words(check, layers);
    edges::wide_lists(check, &mut layers.random);
    edges::damaged_rows(check, layers);
    edges::several(check, layers, samples);
    edges::gate_faults(check, &mut layers.random, samples);
    edges::long_inputs(check, &mut layers.random);
    edges::long_lists(check, &mut layers.random);
    edges::parts(check, &mut layers.random);
}

/// The minimal list with a memory, in as many random layers as are asked for.
fn with_memory(check: &mut Checker, layers: &mut Layers, most: usize, samples: usize) -> Summary {
    let mut summary = Summary::default();
    remembering::every_action(check, &mut summary, most);
    remembering::sampled(check, &mut summary, layers, samples);
    remembering::refused(check, &mut summary, layers, samples / 2);
    summary
}

/// Lent gate sheets, those at the edges and as many random ones as are asked for.
fn with_sheets(check: &mut Checker, random: &mut Random, samples: usize) -> [sheets::Summary; 2] {
    let [mut edges, mut drawn] = ["sheets at the edges", "random sheets"].map(sheets::Summary::new);
    sheet_edges::counts(check, &mut edges);
    sheet_edges::lines(check, &mut edges);
    sheet_edges::offsets(check, &mut edges);
    sheet_edges::turns(check, &mut edges);
    sheet_edges::both_faults(check, &mut edges);
    sheet_edges::full(check, &mut edges, random);
    sheet_edges::changed_six(check, &mut edges);
    sheet_edges::orders(check, &mut edges);
    sheet_edges::no_turns(check, &mut edges);
    sheets::our_six_elsewhere(check, &mut edges, random, samples / 10);
    sheets::parts(check, &mut edges, random);
    sheets::sampled(check, &mut drawn, random, samples);
    [edges, drawn]
}

/// Self-inverse layers, as many of each kind and width as are asked for, and the edges of their call.
fn with_echoes(check: &mut Checker, random: &mut Random, samples: usize, listed: &mut Vec<Listed>) {
    echoes::sampled(check, random, samples, listed);
    echoes::lengths(check, random);
    echoes::one_qubit(check, random);
    echoes::one_turn(check, random, 400 * samples);
    echoes::exchanged(check);
    echoes::several(check, random, 400 * samples);
}

/// The reference answers in a file; ends the program where they cannot be read.
fn against_vectors(check: &mut Checker, file: &str) -> String {
    if file == "-" {
        return "the reference answers with a memory are not at hand: not compared".to_string();
    }
    let text = std::fs::read_to_string(file).unwrap_or_default();
    match vectors::compare(check, &text) {
        Some(lines) if lines > 0 => format!("{lines} reference answers with a memory compared"),
        _ => {
            println!("{file}: not reference answers with a memory");
            std::process::exit(2);
        }
    }
}

/// How many actions differ from the source's, 0 where it is not at hand.
fn against_source(program: &str, listed: &[Listed]) -> u64 {
    if program == "-" {
        println!("the Rust source is not at hand: not compared");
        return 0;
    }
    let differ = source::compare(program, listed).unwrap_or_else(|error| {
        println!("the Rust source did not run: {error}");
        1
    });
    let (all, of_lengths) = (listed.len(), listed.iter().filter(|listed| listed.self_inverse.is_some()).count());
    print!("both lists and the fixed space of {all} actions beside the Rust source's, and the list of {of_lengths} self-inverse ");
    println!("ones by its length, {differ} differ");
    differ
}

/// Ends the program if the comparison cannot be trusted.
fn test_self() {
    let facts = [
        selftest::examples(),
        selftest::fixed_spaces(),
        selftest::choices(),
        selftest::families(),
        selftest::source_lines(),
        selftest_memory::memories(),
        selftest_memory::entries(),
        selftest_memory::reference_lines(),
        selftest_self_inverse::numbers(),
        selftest_self_inverse::lists(),
        selftest_self_inverse::kinds(),
        selftest_sheets::numbers(),
        selftest_sheets::actions(),
        selftest_sheets::refusals(),
        selftest_sheets::our_six(),
        selftest_sheets::makers(),
        selftest_sheets::both_models(),
    ];
    match facts.into_iter().collect::<Result<(), String>>().and_then(|()| selftest::planted()) {
        Ok(seen) => println!("{seen} planted damages, all of them reported\n"),
        Err(text) => {
            println!("{text}");
            std::process::exit(2);
        }
    }
}

fn main() {
    let arguments: Vec<String> = std::env::args().skip(1).collect();
    let after = |word: &str| arguments.iter().position(|argument| argument == word).map(|at| at + 1);
    let named = |place: usize| arguments.get(place).map_or("-", String::as_str);
    test_self();
    let plant = after("plant").and_then(|at| arguments.get(at)?.parse().ok());
    let mut check = Checker::new(plant, false);
    let mut layers = Layers::new(2102);
    let mut listed = Vec::new();
    let most = if after("three").is_some() { 3 } else { 2 };
    every_action(&mut check, most, &mut listed);
    every_matrix(&mut check);
    shorter::every_pair(&mut check);
    sampled(&mut check, &mut layers, &mut listed);
    deep(&mut check, &mut layers, &mut listed);
    circuits(&mut check, &mut layers, &mut listed);
    all_edges(&mut check, &mut layers, 20_000);
    let summary = with_memory(&mut check, &mut layers, most, 5_000);
    let of_sheets = with_sheets(&mut check, &mut layers.random, 20_000);
    with_echoes(&mut check, &mut layers.random, 10, &mut listed);
    let of_vectors = against_vectors(&mut check, named(1));
    check.print_table();
    summary.print();
    of_sheets.iter().for_each(sheets::Summary::print);
    println!("{of_vectors}");
    let differ = check.differ + against_source(named(0), &listed);
    println!("{} calls compared, {differ} differ", check.calls);
    let complete = of_sheets.iter().all(|sheets| sheets.missing().is_empty());
    std::process::exit(i32::from(differ != 0 || !complete));
}
