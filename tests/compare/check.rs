//! One comparison after another: what the library did beside what the model says, tallied by family and width.
use crate::library::{answer, Call, Question, Seen, Spoil, SIX_GATES};
use crate::memory::Memory;
use crate::model::{self, Reply};
use crate::self_inverse;
use std::fmt::Debug;

/// The widths of the table's columns, each up to the number given.
const BANDS: [(u64, &str); 8] =
    [(0, "0"), (1, "1"), (2, "2"), (8, "3-8"), (16, "9-16"), (31, "17-31"), (32, "32"), (u64::MAX, "33-")];

#[derive(Default)]
pub struct Tally {
    calls: [u64; BANDS.len()],
    pub actions: u64,
    pub extra_turn: u64,
    pub spent: u64,
    pub most_looks: u64,
    pub self_inverse: u64,
    /// Self-inverse actions whose search is spent.
    pub without_search: u64,
}

#[derive(Default)]
pub struct Checker {
    tallies: Vec<(&'static str, Tally)>,
    pub calls: u64,
    pub differ: u64,
    /// Gate calls compared with the scope paper's table too.
    on_our_six: u64,
    refusals: [u64; 18],
    plant: Option<u64>,
    quiet: bool,
}

/// What a caller should see, by the model.
pub fn expected(question: &Question) -> Seen {
    let (n, words, out) = (question.n, &question.words, question.out);
    let mut memory = Memory::new(question.memory.len());
    let reply = match question.call {
        Call::Minimal { budget } => model::minimal(n, words, budget, out),
        Call::Remembering { budget } => model::remembering(n, words, budget, &mut memory, out),
        Call::Greedy => model::greedy(n, words, out),
        Call::FixedSpace => model::fixed_space(n, words, out),
        Call::SelfInverse => return expected_count(question),
        Call::Rebuild => model::rebuild(n, words, out),
        Call::Shorter => return expected_choice(question),
        Call::Sheet => return Seen::untouched(model::sheet_number(&question.sheet), question),
        Call::Gates => model::gates(n, &question.sheet, &question.bytes, out),
    };
    Seen { memory: memory.laid(&question.memory), ..after(reply, question) }
}

/// The same of a gate call on our six, by the scope paper's table; none of any other call.
pub fn expected_of_six(question: &Question) -> Option<Seen> {
    let on_six = question.call == Call::Gates && question.sheet == SIX_GATES;
    on_six.then(|| after(model::six_gates(question.n, &question.bytes, question.out), question))
}

/// The lent words after a reply, but for a memory.
fn after(reply: Reply, question: &Question) -> Seen {
    let mut seen = Seen::untouched(0, question);
    let (list, looks) = match reply {
        Err(number) => return Seen { number, ..seen },
        Ok(answer) => answer,
    };
    seen.out[..list.len()].copy_from_slice(&list);
    seen.count = list.len() as u64;
    if matches!(question.call, Call::Minimal { .. } | Call::Remembering { .. }) {
        seen.looks = looks;
    }
    seen
}

/// The same of the call that lists nothing.
fn expected_choice(question: &Question) -> Seen {
    let [first, second] = &question.lists;
    match model::shorter(question.n, &question.words, first, second) {
        Err(number) => Seen::untouched(number, question),
        Ok(chosen) => Seen { chosen, ..Seen::untouched(0, question) },
    }
}

/// The same of the call that chooses its list: the count, and no word listed yet.
fn expected_count(question: &Question) -> Seen {
    match model::self_inverse(question.n, &question.words, question.out) {
        Err(number) => Seen::untouched(number, question),
        Ok(count) => Seen { count: count as u64, ..Seen::untouched(0, question) },
    }
}

/// What a caller should see, with as many words as are to be listed taken from what was seen, where the choice is the library's.
fn with_choice(mut want: Seen, question: &Question, seen: &Seen) -> Seen {
    if question.call == Call::SelfInverse && want.number == 0 {
        let listed = want.count as usize;
        want.out[..listed].copy_from_slice(&seen.out[..listed]);
    }
    want
}

/// What keeps a list from being one that the library may choose.
fn flaw_of_choice(question: &Question, seen: &Seen) -> Option<String> {
    let chosen = question.call == Call::SelfInverse && seen.number == 0;
    let flaw = || self_inverse::flaw(question.n as usize, &question.words, seen.list());
    chosen.then(flaw)?.map(str::to_string)
}

/// What a model, which is named, and the library say differently.
fn differences(by: &str, want: &Seen, seen: &Seen) -> String {
    let mut text = Vec::new();
    for (name, model, library) in [
        ("number", want.number, seen.number),
        ("count", want.count, seen.count),
        ("looks", want.looks, seen.looks),
        ("chosen", want.chosen, seen.chosen),
    ] {
        if model != library {
            text.push(format!("{name} {model:#x} by {by}, {library:#x} by the library"));
        }
    }
    for (name, model, library) in [("output", &want.out, &seen.out), ("memory", &want.memory, &seen.memory)] {
        let differ = model.iter().zip(library).enumerate().filter(|(_, (a, b))| a != b);
        for (place, (model, library)) in differ.take(200) {
            text.push(format!("{name} word {place} {model:#x} by {by}, {library:#x} by the library"));
        }
    }
    if !seen.guards {
        text.push("a guard word was touched".to_string());
    }
    if !seen.input {
        text.push("an input word was touched".to_string());
    }
    text.join("\n  ")
}

/// What the library said differently from the model or, on our six gates, from the scope paper's table.
pub fn unlike(seen: &Seen, want: &Seen, of_six: Option<&Seen>) -> Option<String> {
    if seen != want {
        return Some(differences("the model", want, seen));
    }
    let of_six = of_six.filter(|want| seen != *want)?;
    Some(differences("the scope paper's table", of_six, seen))
}

/// Words or bytes to print, of long lists the first.
fn shown<T: Debug>(words: &[T]) -> String {
    let (first, more) = words.split_at(words.len().min(200));
    let more = if more.is_empty() { String::new() } else { format!(" and {} more", more.len()) };
    format!("{first:x?}{more}")
}

impl Checker {
    /// The count, the choice, a sheet's number or the last memory word of the call whose number is planted is damaged; a quiet
    /// checker counts the differences and prints none.
    pub fn new(plant: Option<u64>, quiet: bool) -> Checker {
        Checker { plant, quiet, ..Checker::default() }
    }

    pub fn tally(&mut self, family: &'static str) -> &mut Tally {
        let at = self.tallies.iter().position(|(name, _)| *name == family).unwrap_or_else(|| {
            self.tallies.push((family, Tally::default()));
            self.tallies.len() - 1
        });
        &mut self.tallies[at].1
    }

    /// Makes one call and compares it; what the library left.
    pub fn call(&mut self, family: &'static str, question: &Question) -> Seen {
        self.call_spoiled(family, question, None)
    }

    pub fn call_spoiled(&mut self, family: &'static str, question: &Question, spoil: Option<Spoil>) -> Seen {
        let (want, of_six) = (expected(question), expected_of_six(question));
        let mut seen = answer(question, spoil);
        let want = with_choice(want, question, &seen);
        self.calls += 1;
        if self.plant == Some(self.calls) {
            *match (question.call, seen.memory.last_mut()) {
                (_, Some(word)) => word,
                (Call::Shorter, _) => &mut seen.chosen,
                (Call::Sheet, _) => &mut seen.number,
                _ => &mut seen.count,
            } ^= 1;
        }
        let band = BANDS.iter().position(|(last, _)| question.n <= *last).unwrap_or(BANDS.len() - 1);
        self.tally(family).calls[band] += 1;
        self.refusals[want.number as usize] += 1;
        self.on_our_six += u64::from(of_six.is_some());
        if let Some(text) = unlike(&seen, &want, of_six.as_ref()).or_else(|| flaw_of_choice(question, &seen)) {
            self.report(question, &text);
        }
        seen
    }

    /// A fact about a call that needs no model.
    pub fn require(&mut self, holds: bool, question: &Question, what: &str) {
        if !holds {
            self.report(question, what);
        }
    }

    fn report(&mut self, question: &Question, text: &str) {
        self.differ += 1;
        if self.differ <= 3 && !self.quiet {
            let Question { call, n, words, sheet, bytes, lists, out, memory } = question;
            let [words, first, second] = [words, &lists[0], &lists[1]].map(|words| shown(words));
            let [sheet, bytes] = [sheet, bytes].map(|bytes| shown(bytes));
            print!("differs: {call:?}, n = {n}, {out} output words, words {words}, sheet {sheet}, bytes {bytes}");
            println!(", lists {first} and {second}, {} memory words\n  {text}\n", memory.len());
        }
    }

    pub fn print_table(&self) {
        print!("{:<20}", "calls, by width");
        BANDS.iter().for_each(|(_, name)| print!("{name:>9}"));
        println!("{:>10}", "all");
        for (family, tally) in &self.tallies {
            print!("{family:<20}");
            tally.calls.iter().for_each(|calls| print!("{calls:>9}"));
            println!("{:>10}", tally.calls.iter().sum::<u64>());
        }
        println!("\n{:<20}{:>9}{:>14}{:>8}{:>12}", "actions", "all", "r + 1 turns", "spent", "most looks");
        for (family, t) in self.tallies.iter().filter(|(_, t)| t.actions > 0) {
            println!("{family:<20}{:>9}{:>14}{:>8}{:>12}", t.actions, t.extra_turn, t.spent, t.most_looks);
        }
        let with_lists = self.tallies.iter().filter(|(_, t)| t.self_inverse > 0);
        let counts: Vec<String> = with_lists.map(|(family, t)| format!("{family} {}", t.self_inverse)).collect();
        let without_search: u64 = self.tallies.iter().map(|(_, t)| t.without_search).sum();
        println!("\nself-inverse among them: {}; {without_search} of these are spent", counts.join(", "));
        // 12 and 13 are the job file's, and there is no 7
        let of_calls = self.refusals.iter().enumerate().filter(|(k, _)| ![7, 12, 13].contains(k));
        let counts: Vec<String> = of_calls.map(|(k, calls)| format!("{k}: {calls}")).collect();
        println!("\ncalls by answer (0) or refusal: {}", counts.join(", "));
        println!("{} gate calls on our six gates beside the scope paper's table too", self.on_our_six);
    }
}
