//! Lengths, widths and damage: every refusal before the search, alone and together with others.
use crate::check::Checker;
use crate::layers::{Family, Layers, Random};
use crate::library::{choice_of_parts, Call, Question};
use crate::shorter::{reply, Maker};
use crate::words::{identity, product};

/// Enough for every search here that is not meant to be refused, and no more than a moment.
const BUDGET: u64 = 2_000;

/// The calls that take an action and list words.
fn action_calls() -> [Call; 5] {
    let (minimal, remembering) = (Call::Minimal { budget: BUDGET }, Call::Remembering { budget: BUDGET });
    [minimal, remembering, Call::Greedy, Call::FixedSpace, Call::SelfInverse]
}

/// Those, and a rebuild of the rows.
fn word_calls() -> [Call; 6] {
    let [minimal, remembering, greedy, fixed_space, self_inverse] = action_calls();
    [minimal, remembering, greedy, fixed_space, self_inverse, Call::Rebuild]
}

/// Up to this many turns, none of them zero.
fn turns(random: &mut Random, n: usize, most: usize) -> Vec<u64> {
    (0..most).map(|_| random.vector(n)).filter(|v| *v != 0).collect()
}

fn around(length: usize) -> Vec<usize> {
    let mut lengths = vec![0, 1, length.saturating_sub(1), length, length + 1, length + 9];
    lengths.sort_unstable();
    lengths.dedup();
    lengths
}

/// Every output length and row count near those that the questions name.
pub fn lengths(check: &mut Checker, layers: &mut Layers) {
    for n in 0..=32usize {
        let rows = if n == 0 { Vec::new() } else { layers.action(Family::FewTurns, n) };
        for call in word_calls() {
            let outs = [around(2 * n), around(2 * n + 1), around(4 * n + 2)].concat();
            for out in outs {
                check.call("lengths", &Question::of_words(call, n as u64, &rows, out));
            }
            for count in [around(2 * n), vec![63, 64, 65, 66, 130]].concat() {
                let mut rows = rows.clone();
                rows.resize(count, 0);
                check.call("lengths", &Question::of_words(call, n as u64, &rows, 4 * n + 2));
                check.call("lengths", &Question::of_words(call, n as u64, &rows, 2 * n));
            }
        }
        for out in around(2 * n) {
            check.call("lengths", &Question::of_gates(n as u64, &circuit(&mut layers.random, n, 5), out));
        }
        let list = turns(&mut layers.random, n, 5);
        for count in [around(2 * n), vec![63, 64, 65, 66, 130]].concat() {
            let mut rows = product(n, &list);
            rows.resize(count, 0);
            for [first, second] in [[&list, &list], [&list, &rows], [&rows, &list]] {
                check.call("lengths", &Question::of_lists(n as u64, &rows, first, second));
            }
        }
    }
}

/// Lists of zeros beside the identity: the shorter is chosen, the first at equal length. Beside another action neither
/// matches.
pub fn list_lengths(check: &mut Checker) {
    let lengths = [0, 1, 2, 63, 64, 65, 255, 256, 257, 1_000, 65_536, 65_537];
    for (n, a, b) in [0, 1, 5].into_iter().flat_map(|n| lengths.map(|a| lengths.map(|b| (n, a, b)))).flatten() {
        let (first, second) = (vec![0; a], vec![0; b]);
        let question = Question::of_lists(n as u64, &identity(n), &first, &second);
        let got = reply(&check.call("lengths", &question));
        check.require(got == if a <= b { 1 } else { 2 }, &question, "not the shorter");
        if n > 0 {
            let question = Question::of_lists(n as u64, &product(n, &[1]), &first, &second);
            let got = reply(&check.call("lengths", &question));
            check.require(got == 14, &question, "zeros changed something");
        }
    }
}

/// Qubit counts above 32, those among them whose double or whose lower half is small.
pub fn widths(check: &mut Checker) {
    let high =
        [33, 34, 64, 65, 1 << 16, 1 << 31, 1 << 32, (1 << 32) + 2, 1 << 63, (1 << 63) + 1, u64::MAX - 1, u64::MAX];
    for n in high {
        for count in [0, 2, 4, 64, 66] {
            let rows: Vec<u64> = (0..count).map(|k| 1u64 << (k % 64)).collect();
            for call in word_calls() {
                for out in [0, 2, 4, 66, 200] {
                    check.call("widths past 32", &Question::of_words(call, n, &rows, out));
                }
            }
            check.call("widths past 32", &Question::of_gates(n, &[0, 0, 0, 9, 9, 9], count));
            check.call("widths past 32", &Question::of_lists(n, &rows, &[], &[]));
            check.call("widths past 32", &Question::of_lists(n, &rows, &rows, &[0, 1 << 63]));
        }
    }
}

/// A row or vector with one bit from 2n up, at each place and bit of the small widths and at some of the others.
pub fn wide_words(check: &mut Checker, layers: &mut Layers) {
    for n in 1..32usize {
        let rows = layers.action(Family::Uniform, n);
        for place in 0..2 * n {
            for bit in 2 * n..64 {
                if n > 3 && !layers.random.one_in(2 * n) {
                    continue;
                }
                let mut rows = rows.clone();
                rows[place] ^= 1 << bit;
                for call in word_calls() {
                    let (out, wide) = if call == Call::Rebuild { (2 * n, 8) } else { (4 * n + 2, 3) };
                    let question = Question::of_words(call, n as u64, &rows, out);
                    let number = check.call("wide words", &question).number;
                    check.require(number == wide, &question, "a word with a bit from 2n up passed");
                }
            }
        }
    }
}

/// The same where a list is to be chosen: a wide row is refused, and a list with a wide vector does not match.
pub fn wide_lists(check: &mut Checker, random: &mut Random) {
    for n in 1..32usize {
        let list = [turns(random, n, 8), vec![1, 2, 3]].concat();
        for bit in 2 * n..64 {
            let (mut rows, mut wide) = (product(n, &list), list.clone());
            wide[random.below(list.len())] |= 1 << bit;
            let (longer, alone) = ([&list[..], &[0]].concat(), [&list[..], &[1 << bit]].concat());
            for (first, second, wanted) in
                [(&wide, &longer, 2), (&longer, &wide, 1), (&alone, &wide, 14), (&longer, &alone, 1)]
            {
                let question = Question::of_lists(n as u64, &rows, first, second);
                let got = reply(&check.call("wide words", &question));
                check.require(got == wanted, &question, "not the list without a wide vector");
            }
            rows[random.below(2 * n)] |= 1 << bit;
            let question = Question::of_lists(n as u64, &rows, &list, &rows);
            let number = check.call("wide words", &question).number;
            check.require(number == 3, &question, "a word with a bit from 2n up passed");
        }
    }
}

/// A symplectic action with one row made zero or a copy of another, which is never symplectic, or with one bit changed.
pub fn damaged_rows(check: &mut Checker, layers: &mut Layers) {
    for n in 1..=32usize {
        for sample in 0..60 {
            let mut rows = layers.action(if sample % 2 == 0 { Family::Uniform } else { Family::DirectSum }, n);
            let sure = sample % 3 != 0;
            if sure {
                damage(&mut layers.random, &mut rows);
            } else {
                let place = layers.random.below(2 * n);
                rows[place] ^= 1 << layers.random.below(2 * n);
            }
            for call in action_calls() {
                let question = Question::of_words(call, n as u64, &rows, 4 * n + 2);
                let number = check.call("damaged rows", &question).number;
                check.require(!sure || number == 4, &question, "an action that is not symplectic passed");
            }
            let question = Question::of_lists(n as u64, &rows, &[], &rows);
            let number = check.call("damaged rows", &question).number;
            check.require(!sure || number == 4, &question, "an action that is not symplectic passed");
        }
    }
}

/// One row made zero, or a copy of another row.
fn damage(random: &mut Random, rows: &mut [u64]) {
    let place = random.below(rows.len());
    let other = (place + 1 + random.below(rows.len() - 1)) % rows.len();
    rows[place] = if random.one_in(2) { 0 } else { rows[other] };
}

/// Several refusals at once: the first in the order of the questions is given.
pub fn several(check: &mut Checker, layers: &mut Layers, samples: usize) {
    for _ in 0..samples {
        let n = 1 + layers.random.below(32);
        let (question, planted) = match word_calls().get(layers.random.below(7)) {
            None => several_lists(layers, n),
            Some(Call::Rebuild) => several_rebuild(layers, n),
            Some(call) => several_rows(layers, n, *call),
        };
        let number = check.call("several refusals", &question).number;
        let first = planted.iter().min();
        check.require(first.is_none() || first == Some(&number), &question, "not the first refusal");
    }
}

/// A call on rows, and the refusals that are planted.
pub fn several_rows(layers: &mut Layers, n: usize, call: Call) -> (Question, Vec<u64>) {
    let mut rows = layers.action(Family::FewTurns, n);
    let random = &mut layers.random;
    let wanted = random.word();
    let planted: Vec<u64> = (1..=5).filter(|k| wanted >> k & 1 == 1 && (*k != 3 || n < 32)).collect();
    let count = plant(random, n, &mut rows, &planted);
    let needed = match call {
        Call::Greedy => 4 * n + 2,
        Call::FixedSpace => 2 * n,
        _ => 2 * n + 1,
    };
    let out = if planted.contains(&5) { random.below(needed) } else { needed + random.below(4) };
    (Question::of_words(call, count, &rows, out), planted)
}

/// Plants those of the refusals 1 to 4 that are named; the qubit count to pass.
pub fn plant(random: &mut Random, n: usize, rows: &mut Vec<u64>, planted: &[u64]) -> u64 {
    if planted.contains(&4) {
        damage(random, rows);
    }
    if planted.contains(&3) {
        let place = random.below(2 * n);
        rows[place] |= 1 << (2 * n + random.below(64 - 2 * n));
    }
    if planted.contains(&2) {
        rows.resize(if random.one_in(2) { 2 * n - 1 } else { 2 * n + 1 + random.below(3) }, 0);
    }
    if planted.contains(&1) {
        33 + random.word() % 40
    } else {
        n as u64
    }
}

fn several_lists(layers: &mut Layers, n: usize) -> (Question, Vec<u64>) {
    let random = &mut layers.random;
    let list = turns(random, n, 9);
    let mut rows = product(n, &list);
    let wanted = random.word();
    let planted: Vec<u64> =
        [1, 2, 3, 4, 14].into_iter().filter(|k| wanted >> k & 1 == 1 && (*k != 3 || n < 32)).collect();
    let count = plant(random, n, &mut rows, &planted);
    let mut maker = Maker::new(n, random.word() >> 1);
    let (wrong, other) = (maker.spoiled(&list), maker.spoiled(&list));
    let question = match (planted.contains(&14), random.one_in(2)) {
        (true, _) => Question::of_lists(count, &rows, &wrong, &other),
        (false, true) => Question::of_lists(count, &rows, &wrong, &list),
        (false, false) => Question::of_lists(count, &rows, &list, &wrong),
    };
    (question, planted)
}

fn several_rebuild(layers: &mut Layers, n: usize) -> (Question, Vec<u64>) {
    let random = &mut layers.random;
    let mut vectors: Vec<u64> = (0..1 + random.below(9)).map(|_| random.vector(n)).collect();
    let wanted = random.word();
    let planted: Vec<u64> = [1, 2, 8].into_iter().filter(|k| wanted >> k & 1 == 1 && (*k != 8 || n < 32)).collect();
    if planted.contains(&8) {
        let place = random.below(vectors.len());
        vectors[place] |= 1 << (2 * n + random.below(64 - 2 * n));
    }
    let out = if planted.contains(&2) { 2 * n + 1 - 2 * random.below(2) } else { 2 * n };
    let count = if planted.contains(&1) { u64::MAX - random.word() % 40 } else { n as u64 };
    (Question::of_words(Call::Rebuild, count, &vectors, out), planted)
}

/// Gates that pass their questions; the byte that is not read is any.
pub fn circuit(random: &mut Random, n: usize, gates: usize) -> Vec<u8> {
    let mut bytes = Vec::new();
    for _ in 0..if n == 0 { 0 } else { gates } {
        let gate = random.below(if n == 1 { 3 } else { 6 });
        let a = random.below(n);
        let b = if gate < 3 { random.below(256) } else { (a + 1 + random.below(n - 1)) % n };
        bytes.extend([gate as u8, a as u8, b as u8]);
    }
    bytes
}

/// Every single gate byte with qubits around n, then circuits with bad gates, bytes left over, and other refusals.
pub fn gate_faults(check: &mut Checker, random: &mut Random, samples: usize) {
    for n in [0u64, 1, 2, 31, 32] {
        let qubits = [0, 1, n.saturating_sub(1) as u8, n as u8, n as u8 + 1, 128, 255];
        for gate in 0..=255 {
            for bytes in qubits.iter().flat_map(|&a| qubits.iter().map(move |&b| [gate, a, b])) {
                check.call("gate faults", &Question::of_gates(n, &bytes, 2 * n as usize));
            }
        }
    }
    for _ in 0..samples {
        let n = 2 + random.below(31);
        let gates = 1 + random.below(20);
        let mut bytes = circuit(random, n, gates);
        let mut first = (bytes.len(), 0);
        for _ in 0..random.below(4) {
            let place = 3 * random.below(bytes.len() / 3);
            let (gate, number) = bad_gate(random, n);
            bytes[place..place + 3].copy_from_slice(&gate);
            if place <= first.0 {
                first = (place, number);
            }
        }
        bytes.extend([255; 2].iter().take(random.below(3)));
        let (count, out) = (if random.one_in(9) { 33 } else { n as u64 }, 2 * n + usize::from(random.one_in(9)));
        let number = check.call("gate faults", &Question::of_gates(count, &bytes, out)).number;
        let wanted = if count == 33 {
            1
        } else if out != 2 * n {
            2
        } else {
            first.1
        };
        check.require(number == wanted, &Question::of_gates(count, &bytes, out), "not the first refusal");
    }
}

/// A gate that is refused, and its number; what comes later in the questions may be wrong with it too.
fn bad_gate(random: &mut Random, n: usize) -> ([u8; 3], u64) {
    let inside = random.below(n) as u8;
    let high = (n + random.below(256 - n)) as u8;
    let two = 3 + random.below(3) as u8;
    match random.below(6) {
        0 => ([6 + random.below(250) as u8, inside, high], 9),
        1 => ([6 + random.below(250) as u8, high, high], 9),
        2 => ([random.below(6) as u8, high, inside], 10),
        3 => ([two, inside, high], 10),
        4 => ([two, high, high], 10),
        _ => ([two, inside, inside], 11),
    }
}

/// Lists and circuits far longer than any that a layer needs.
pub fn long_inputs(check: &mut Checker, random: &mut Random) {
    for n in [1usize, 2, 5, 17, 31, 32] {
        for length in [1_000, 20_000] {
            let vectors: Vec<u64> = (0..length).map(|k| if k % 7 == 0 { 0 } else { random.vector(n) }).collect();
            check.call("long inputs", &Question::of_words(Call::Rebuild, n as u64, &vectors, 2 * n));
            let bytes = circuit(random, n, length);
            check.call("long inputs", &Question::of_gates(n as u64, &bytes, 2 * n));
        }
    }
}

/// Lists far longer than any that a layer needs, once of a million vectors.
pub fn long_lists(check: &mut Checker, random: &mut Random) {
    let widths = [1, 2, 5, 17, 31, 32].into_iter().flat_map(|n| [1_000, 20_000].map(|length| (n, length)));
    for (n, length) in widths.chain([(32, 1_000_000)]) {
        let list: Vec<u64> = (0..length).map(|k| if k % 7 == 0 { 0 } else { random.vector(n) }).collect();
        let rows = product(n, &list);
        let longer = [&list[..], &[0]].concat();
        let mut wrong = list.clone();
        wrong[random.below(length)] ^= 1 << (2 * n - 1);
        let cases = [(&longer, &wrong, 1), (&longer, &list, 2), (&wrong, &wrong, 14)];
        for (first, second, wanted) in cases.into_iter().take(if length < 1_000_000 { 3 } else { 1 }) {
            let question = Question::of_lists(n as u64, &rows, first, second);
            let got = reply(&check.call("long inputs", &question));
            check.require(got == wanted, &question, "not the shorter list that matches");
        }
    }
}

/// Rows and lists that overlap, and empty ones at null: the same reply as from buffers of their own.
pub fn parts(check: &mut Checker, random: &mut Random) {
    for n in 0..=32usize {
        for _ in 0..10 {
            let list = turns(random, n, 6);
            let all = [product(n, &list), list, vec![0]].concat();
            let (rows, end) = (2 * n, all.len());
            for (first, second) in [
                (rows..end, rows..end - 1),
                (rows..end - 1, rows..end - 1),
                (0..end, rows..end),
                (rows..end - 1, 0..rows),
                (0..0, rows..end),
                (0..0, 0..0),
                (0..end, 1..end),
            ] {
                let question = Question::of_lists(n as u64, &all[..rows], &all[first.clone()], &all[second.clone()]);
                let seen = check.call("parts of one buffer", &question);
                let got = choice_of_parts(n as u64, &all, [0..rows, first, second]);
                check.require(got == (seen.number, seen.chosen), &question, "another reply where the parts overlap");
            }
        }
    }
}
