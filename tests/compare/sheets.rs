//! Gate sheets of all kinds and sequences of their gates: the number that each must give is known from how it was made, but for
//! random damage and random bytes.
use crate::check::Checker;
use crate::edges::circuit;
use crate::layers::Random;
use crate::library::{rows_of_parts, Question, Seen};
use crate::model;
use crate::sheet_maker::{any_packed, gate, line, malform, our_six, overlaps, packed, scattered, spoil_turn, WAYS};
use crate::words::identity;

/// What came of the sheets that are named and of the gate calls on them, by number.
#[derive(Default)]
pub struct Summary {
    name: &'static str,
    sheets: [u64; 17],
    calls: [u64; 17],
    in_table: u64,
    shared: u64,
    several: u64,
}

impl Summary {
    pub fn new(name: &'static str) -> Summary {
        Summary { name, ..Summary::default() }
    }

    /// Asks a sheet, and a gate call on it; the number must be the one that is wanted, if any is.
    pub fn sheet(&mut self, check: &mut Checker, sheet: &[u8], wanted: Option<u64>) -> u64 {
        let (question, before) = (Question::of_sheet(sheet), check.differ);
        let number = check.call("gate sheets", &question).number;
        check.require(number == wanted.unwrap_or(number), &question, "not the number of such a sheet");
        self.gates(check, &Question::of_gates(2, &[0, 0, 1], 4).with_sheet(sheet), Some(number));
        if number == 0 && check.differ == before {
            let [in_table, shared] = overlaps(sheet).map(u64::from);
            self.in_table += in_table;
            self.shared += shared;
        }
        self.sheets[number.min(16) as usize] += 1;
        number
    }

    /// Makes a gate call on a lent sheet.
    pub fn gates(&mut self, check: &mut Checker, question: &Question, wanted: Option<u64>) -> Seen {
        let seen = check.call("gates of a sheet", question);
        check.require(seen.number == wanted.unwrap_or(seen.number), question, "not the first refusal");
        self.calls[seen.number.min(16) as usize] += 1;
        let several = seen.number == 0 && question.bytes.len() >= 6;
        self.several += u64::from(several && seen.out != identity(question.n as usize));
        seen
    }

    /// What never came, so that nothing was compared there.
    pub fn missing(&self) -> Vec<String> {
        let of_sheets = [0, 15, 16].map(|k| (format!("a sheet with {k}"), self.sheets[k]));
        let of_calls = [0, 1, 2, 9, 10, 11, 15, 16].map(|k| (format!("a gate call with {k}"), self.calls[k]));
        let others = [
            ("turns in the table", self.in_table),
            ("shared turns", self.shared),
            ("several gates that do something", self.several),
        ];
        let others = others.map(|(name, seen)| (name.to_string(), seen));
        let all = of_sheets.into_iter().chain(of_calls).chain(others);
        all.filter(|(_, seen)| *seen == 0).map(|(name, _)| name).collect()
    }

    pub fn print(&self) {
        let by_number = |counts: &[u64; 17]| {
            let came = counts.iter().enumerate().filter(|(_, calls)| **calls > 0);
            came.map(|(k, calls)| format!("{k}: {calls}")).collect::<Vec<_>>().join(", ")
        };
        let Summary { name, sheets, calls, in_table, shared, several } = self;
        let (sheets, calls) = (by_number(sheets), by_number(calls));
        println!("\n{name} by number: {sheets}; {in_table} with turns in the table, {shared} with shared turns");
        println!("gate calls on them by number: {calls}; {several} with several gates that do something");
        self.missing().iter().for_each(|what| println!("never came: {what}"));
    }
}

/// A packed sheet with a bad turn.
fn with_bad_turn(random: &mut Random) -> Vec<u8> {
    loop {
        let mut sheet = any_packed(random);
        let k = random.below(sheet[0] as usize);
        if spoil_turn(random, &mut sheet, k).is_some() {
            return sheet;
        }
    }
}

fn malformed(random: &mut Random, mut sheet: Vec<u8>) -> Vec<u8> {
    let k = random.below(sheet[0] as usize);
    match random.below(WAYS + 1) {
        WAYS => sheet[0] = [0, 65, 255][random.below(3)],
        way => malform(&mut sheet, k, way),
    }
    sheet
}

/// A sheet that passes, with one byte or one bit changed.
fn damaged(random: &mut Random) -> Vec<u8> {
    let mut sheet = if random.one_in(2) { scattered(random) } else { any_packed(random) };
    let used = sheet.len().min(400);
    let place = random.below(used);
    sheet[place] ^= if random.one_in(2) { 1 << random.below(8) } else { 1 + random.below(255) as u8 };
    sheet
}

/// Bytes that are any, or all small.
fn bytes(random: &mut Random) -> Vec<u8> {
    let most = [3, 7, 16, 256][random.below(4)];
    (0..random.below(90)).map(|_| random.below(most) as u8).collect()
}

/// A sheet, and the number that it is made for, if any.
fn drawn(random: &mut Random) -> (Vec<u8>, Option<u64>) {
    match random.below(8) {
        0 => (any_packed(random), Some(0)),
        1 | 2 => (scattered(random), Some(0)),
        3 => (with_bad_turn(random), Some(16)),
        4 => {
            let sheet = any_packed(random);
            (malformed(random, sheet), Some(15))
        }
        5 => {
            let sheet = with_bad_turn(random);
            (malformed(random, sheet), Some(15))
        }
        6 => (damaged(random), None),
        _ => (bytes(random), None),
    }
}

/// Gates of a sheet that passes, which pass their questions; the byte that is not read is any.
pub fn passing(random: &mut Random, sheet: &[u8], n: usize, gates: usize) -> Vec<u8> {
    let mut bytes = Vec::new();
    for _ in 0..gates {
        let k = random.below(sheet[0] as usize);
        let two = sheet[line(k)] == 2;
        if n > usize::from(two) {
            let a = random.below(n);
            let b = if two { (a + 1 + random.below(n - 1)) % n } else { random.below(256) };
            bytes.extend([k as u8, a as u8, b as u8]);
        }
    }
    bytes
}

/// A gate of such a sheet that is refused, and its number; what comes later in the questions may be wrong with it too.
fn bad_gate(random: &mut Random, sheet: &[u8], n: usize) -> ([u8; 3], u64) {
    let (count, any) = (sheet[0] as usize, random.below(256) as u8);
    let unknown = (count + random.below(256 - count)) as u8;
    let high = (n + random.below(256 - n)) as u8;
    let inside = random.below(n.max(1)) as u8;
    let k = random.below(count);
    let two = sheet[line(k)] == 2 && n > 0;
    match random.below(5) {
        0 => ([unknown, inside, any], 9),
        1 => ([unknown, high, high], 9),
        2 if two => ([k as u8, inside, high], 10),
        3 if two => ([k as u8, inside, inside], 11),
        _ => ([k as u8, high, any], 10),
    }
}

/// Gates of such a sheet, and the number of the first that is refused; behind that one the bytes are any.
fn sequence(random: &mut Random, sheet: &[u8], n: usize) -> (Vec<u8>, u64) {
    let gates = random.below(12);
    let mut sequence = passing(random, sheet, n, gates);
    if random.one_in(2) {
        sequence.extend([255; 2].iter().take(random.below(3)));
        return (sequence, 0);
    }
    let (gate, number) = bad_gate(random, sheet, n);
    sequence.extend(gate);
    sequence.extend(bytes(random));
    (sequence, number)
}

/// A gate call on a sheet that gives this number, and the number of the call.
fn call(random: &mut Random, sheet: &[u8], number: u64) -> (Question, u64) {
    let n = random.below(33);
    let (bytes, of_gates) = if number == 0 { sequence(random, sheet, n) } else { (bytes(random), number) };
    let count = if random.one_in(12) { [33, 34, 64, 1 << 32, 1 << 63, u64::MAX][random.below(6)] } else { n as u64 };
    let out = if random.one_in(12) { [0, 2 * n + 1, 2 * n + 2, 66][random.below(4)] } else { 2 * n };
    let wanted = if count > 32 {
        1
    } else if out != 2 * n {
        2
    } else {
        of_gates
    };
    (Question::of_gates(count, &bytes, out).with_sheet(sheet), wanted)
}

/// Random sheets, and gate calls on each.
pub fn sampled(check: &mut Checker, summary: &mut Summary, random: &mut Random, samples: usize) {
    for _ in 0..samples {
        let (sheet, wanted) = drawn(random);
        let before = check.differ;
        let number = summary.sheet(check, &sheet, wanted);
        if check.differ > before {
            continue; // a sheet that only seems to pass has no gates to draw from
        }
        for _ in 0..4 {
            let (question, wanted) = call(random, &sheet, number);
            summary.gates(check, &question, Some(wanted));
        }
    }
}

/// Our six gates among others on other sheets: each sequence has the action of the scope paper's table.
pub fn our_six_elsewhere(check: &mut Checker, summary: &mut Summary, random: &mut Random, samples: usize) {
    for _ in 0..samples {
        let count = 6 + random.below(59);
        let places = random.shuffled(count);
        let mut gates: Vec<_> = (0..count).map(|_| gate(random)).collect();
        our_six().into_iter().zip(&places).for_each(|(gate, place)| gates[*place] = gate);
        let (n, length) = (1 + random.below(32), random.below(40));
        let mut bytes = circuit(random, n, length);
        let rows = model::six_gates(n as u64, &bytes, 2 * n).unwrap_or_default().0;
        bytes.chunks_exact_mut(3).for_each(|gate| gate[0] = places[gate[0] as usize] as u8);
        let question = Question::of_gates(n as u64, &bytes, 2 * n).with_sheet(&packed(&gates));
        let seen = summary.gates(check, &question, Some(0));
        check.require(seen.out == rows, &question, "not the action that our six gates have");
    }
}

/// A sheet and gates that overlap, and empty ones at null: the same reply as from buffers of their own.
pub fn parts(check: &mut Checker, summary: &mut Summary, random: &mut Random) {
    for n in (0..=32).flat_map(|n| [n; 10]) {
        let sheet = scattered(random);
        let all = [&sheet[..], &passing(random, &sheet, n, 6)].concat();
        let (start, end) = (sheet.len(), all.len());
        for (sheet, gates) in [
            (0..start, start..end),
            (0..end, start..end),
            (0..end, 0..end),
            (0..end, 1..start),
            (start..end, start..end),
            (0..start, 0..0),
            (0..0, start..end),
        ] {
            let question = Question::of_gates(n as u64, &all[gates.clone()], 2 * n).with_sheet(&all[sheet.clone()]);
            let seen = summary.gates(check, &question, None);
            let got = rows_of_parts(n as u64, &all, [sheet, gates], 2 * n);
            check.require(got == (seen.number, seen.out), &question, "another reply where the parts overlap");
        }
    }
}
