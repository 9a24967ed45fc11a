//! The minimal list with a memory beside the one without: random layers, memories of 0 to 5,000 words, budgets around the looks.
use crate::check::Checker;
use crate::edges::{circuit, several_rows};
use crate::fixed::is_reduced;
use crate::layers::{all_actions, Family, Layers, Random, FAMILIES};
use crate::library::{pattern, Call, Question, Seen};
use crate::memory::ENTRY;
use crate::model;
use crate::words::residue_rank;
use std::collections::HashSet;

/// The most words of a memory.
const MOST: usize = 5_000;
/// The families whose searches have the most dead ends.
const DEAD_ENDS: [Family; 3] = [Family::Uniform, Family::Permutation, Family::Exceptional];

/// What a call with a memory did that the same call without one does not allow, by facts alone.
pub fn flaw(question: &Question, seen: &Seen, plain: &Seen) -> Option<&'static str> {
    let same = Seen { memory: Vec::new(), ..seen.clone() } == *plain && seen.memory == question.memory;
    let allowed = if plain.number == 6 { &[0, 6][..] } else { &[plain.number] };
    if question.memory.len() < ENTRY && !same {
        Some("no room for an entry, and not what the call without a memory did")
    } else if (1..=5).contains(&plain.number) && !same {
        Some("a refusal by 1 to 5, and not what the call without a memory did")
    } else if !allowed.contains(&seen.number) {
        Some("not a number that the call without a memory allows")
    } else if plain.number == 0 && seen.list() != plain.list() {
        Some("not the list of the call without a memory")
    } else if plain.number == 0 && seen.looks > plain.looks {
        Some("more looks than the call without a memory")
    } else {
        None
    }
}

/// What keeps words that held the pattern from being entries of different spaces in so many columns, and the pattern behind them.
pub fn misshapen(words: &[u64], columns: usize) -> Option<&'static str> {
    let lent = pattern(words.len());
    let pairs = words.chunks_exact(ENTRY).zip(lent.chunks_exact(ENTRY));
    let entries = pairs.take_while(|(left, lent)| left != lent).count();
    let (entered, behind) = words.split_at(entries * ENTRY);
    let fits = |entry: &[u64]| {
        let d = entry[0] as usize;
        let within = |row: &u64| columns == 64 || row >> columns == 0;
        (1..=columns).contains(&d)
            && is_reduced(&entry[1..=d])
            && entry[1..=d].iter().all(within)
            && entry[d + 1..].iter().all(|&word| word == 0)
    };
    if behind != &lent[entries * ENTRY..] {
        Some("a word past the entries was touched")
    } else if !entered.chunks_exact(ENTRY).all(fits) {
        Some("an entry is not a dimension, a reduced basis and zeros")
    } else if entered.chunks_exact(ENTRY).collect::<HashSet<_>>().len() < entries {
        Some("a space is held twice")
    } else {
        None
    }
}

/// How many words to lend: few, any number, and around whole entries.
fn length(random: &mut Random) -> usize {
    match random.below(6) {
        0 => [0, 1, 63, 64, 65, 66, 129, 130, 131, 195, MOST - 1, MOST][random.below(12)],
        1 => random.below(5 * ENTRY),
        2 | 3 => random.below(MOST + 1),
        _ => ENTRY * random.below(MOST / ENTRY) + [0, 1, ENTRY - 1][random.below(3)],
    }
}

/// What the calls with a memory came to beside those without.
#[derive(Default)]
pub struct Summary {
    calls: u64,
    entries: u64,
    full: u64,
    fewer: u64,
    only: u64,
}

impl Summary {
    /// Makes a call with a memory, and the same without one; what both left.
    fn beside(&mut self, check: &mut Checker, question: &Question) -> [Seen; 2] {
        let Call::Remembering { budget } = question.call else { panic!("a call without a memory") };
        let without = Question { call: Call::Minimal { budget }, ..question.clone().with_memory(Vec::new()) };
        let plain = check.call("with a memory", &without);
        let seen = check.call("with a memory", question);
        let wrong = flaw(question, &seen, &plain);
        check.require(wrong.is_none(), question, wrong.unwrap_or_default());
        self.add(&seen, &plain);
        [seen, plain]
    }

    /// Words that hold the pattern are no dimension.
    fn add(&mut self, seen: &Seen, plain: &Seen) {
        let room = seen.memory.len() / ENTRY;
        let entries = seen.memory.chunks_exact(ENTRY).filter(|entry| entry[0] <= 64).count();
        self.calls += 1;
        self.entries += entries as u64;
        self.full += u64::from(room > 0 && entries == room);
        self.fewer += u64::from([seen.number, plain.number] == [0, 0] && seen.looks < plain.looks);
        self.only += u64::from([seen.number, plain.number] == [0, 6]);
    }

    pub fn print(&self) {
        let Summary { calls, entries, full, fewer, only } = self;
        print!("\nwith a memory beside without: {calls} calls, {entries} entries, {full} memories full; {fewer} with fewer looks, ");
        println!("{only} answered and spent without");
    }
}

/// A layer, and how many output words more than needed are lent.
struct Layer<'a> {
    n: usize,
    rows: &'a [u64],
    spare: usize,
}

impl Layer<'_> {
    fn question(&self, budget: u64, memory: &[u64]) -> Question {
        let out = 2 * self.n + 1 + self.spare;
        Question::of_words(Call::Remembering { budget }, self.n as u64, self.rows, out).with_memory(memory.to_vec())
    }

    /// The first search, in a memory that holds the pattern; none where it differs, since others might search without end.
    fn first(&self, check: &mut Checker, summary: &mut Summary, cap: u64, words: usize) -> Option<[Seen; 2]> {
        let question = self.question(cap, &pattern(words));
        let before = check.differ;
        let [seen, plain] = summary.beside(check, &question);
        let rank = residue_rank(self.n, self.rows);
        let wrong = misshapen(&seen.memory, rank);
        check.require(wrong.is_none(), &question, wrong.unwrap_or_default());
        let (tally, answered) = (check.tally("with a memory"), seen.number == 0);
        tally.actions += 1;
        tally.spent += u64::from(!answered);
        tally.extra_turn += u64::from(answered && seen.count == rank as u64 + 1);
        tally.most_looks = tally.most_looks.max(if answered { seen.looks } else { 0 });
        (check.differ == before).then_some([seen, plain])
    }

    /// The budgets at which the answer begins, or up to the cap where none does, then memories that are not empty before.
    fn around(&self, check: &mut Checker, summary: &mut Summary, cap: u64, small: u64, [seen, plain]: &[Seen; 2]) {
        let looks = if seen.number == 0 { seen.looks } else { cap };
        let most = if plain.number == 0 { u64::MAX } else { cap };
        let mut budgets = vec![0, small.min(most), looks.saturating_sub(1), looks, most];
        budgets.dedup();
        for budget in budgets {
            let question = self.question(budget, &pattern(seen.memory.len()));
            let number = summary.beside(check, &question)[0].number;
            let wanted = if seen.number == 0 && budget >= looks { 0 } else { 6 };
            check.require(number == wanted, &question, "spent with looks left, or not spent without");
        }
        self.old_words(check, cap, seen);
    }

    /// Words that a former call left, and the whole space as a dead end: neither may be read.
    fn old_words(&self, check: &mut Checker, cap: u64, seen: &Seen) {
        let rank = residue_rank(self.n, self.rows);
        let root = (0..ENTRY).map(|k| if k == 0 { rank as u64 } else { u64::from(k <= rank) << (k - 1) });
        let whole: Vec<u64> = root.cycle().take(seen.memory.len()).collect();
        for (old, what) in [(&seen.memory, "a former call's words were read"), (&whole, "a lent dead end was read")] {
            let question = self.question(cap, old);
            let again = check.call("with a memory", &question);
            let same = Seen { memory: Vec::new(), ..again } == Seen { memory: Vec::new(), ..seen.clone() };
            check.require(same, &question, what);
        }
    }
}

/// Every symplectic action on 0 to this many qubits, in memories of up to five entries.
pub fn every_action(check: &mut Checker, summary: &mut Summary, most: usize) {
    for n in 0..=most {
        for (k, (rows, _)) in all_actions(n).iter().enumerate() {
            let layer = Layer { n, rows, spare: k % 2 };
            let words = [0, 64, 65, 130, 200, 325][k % 6];
            if let Some([seen, _]) = layer.first(check, summary, 20_000, words) {
                summary.beside(check, &layer.question(seen.looks.saturating_sub(1), &pattern(words)));
            }
        }
    }
}

/// An action of any family or of a gate circuit; one time in two of a family with many dead ends.
fn drawn(layers: &mut Layers, n: usize) -> Vec<u64> {
    if layers.random.one_in(2) {
        let family = DEAD_ENDS[layers.random.below(DEAD_ENDS.len())];
        return layers.action(family, n);
    }
    match FAMILIES.get(layers.random.below(FAMILIES.len() + 1)) {
        Some((family, _)) => layers.action(*family, n),
        None => {
            let gates = layers.random.below(8 * n);
            model::six_gates(n as u64, &circuit(&mut layers.random, n, gates), 2 * n).unwrap_or_default().0
        }
    }
}

/// Random layers, nine in ten of them on 3 to 6 qubits.
pub fn sampled(check: &mut Checker, summary: &mut Summary, layers: &mut Layers, samples: usize) {
    for k in 0..samples {
        let larger = k % 10 == 9;
        let n = if larger { 7 + layers.random.below(26) } else { 3 + layers.random.below(4) };
        let rows = drawn(layers, n);
        let layer = Layer { n, rows: &rows, spare: k % 4 };
        let cap = if layers.random.one_in(3) { 300 } else { [20_000, 3_000][usize::from(larger)] };
        let words = length(&mut layers.random);
        let small = 1 + layers.random.below(60) as u64;
        if let Some(both) = layer.first(check, summary, cap, words) {
            layer.around(check, summary, cap, small, &both);
        }
    }
}

/// Refusals by 1 to 5, alone and together: the memory is as it was.
pub fn refused(check: &mut Checker, summary: &mut Summary, layers: &mut Layers, samples: usize) {
    for _ in 0..samples {
        let n = 1 + layers.random.below(32);
        let budget = [0, 1, 2_000][layers.random.below(3)];
        let (question, planted) = several_rows(layers, n, Call::Remembering { budget });
        let question = question.with_memory(pattern(length(&mut layers.random)));
        let number = summary.beside(check, &question)[0].number;
        let first = planted.iter().min();
        check.require(first.is_none() || first == Some(&number), &question, "not the first refusal");
    }
}
