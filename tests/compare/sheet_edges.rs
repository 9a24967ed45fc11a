//! Gate sheets at the edges of their questions: every count, length, offset and turn near those that request 8 names.
use crate::check::Checker;
use crate::layers::Random;
use crate::library::{Question, SIX_GATES};
use crate::sheet_maker::{allowed, gate_of, line, malform, packed, set_offset, turns_at, Gate, WAYS};
use crate::sheets::{passing, Summary};

/// The number where the questions 15 are answered yes or no.
fn fifteen_unless(passes: bool) -> Option<u64> {
    Some(if passes { 0 } else { 15 })
}

/// A sheet of this length with one gate on one qubit, all bytes behind it an X.
fn of_one(turns: u8, offset: usize, length: usize) -> Vec<u8> {
    let mut sheet = vec![1; length];
    sheet[line(0) + 1] = turns;
    set_offset(&mut sheet, 0, offset);
    sheet
}

/// Every gate count, beside lines enough for all and beside its own; and every length that cuts a table short.
pub fn counts(check: &mut Checker, summary: &mut Summary) {
    for count in 0..=255 {
        let lines = |lines: u8| [vec![count], [1, 0, 0, 0].repeat(lines.into())].concat();
        let passes = (1..=64).contains(&count);
        summary.sheet(check, &lines(255), fifteen_unless(passes));
        let own = lines(count);
        summary.sheet(check, &own, fifteen_unless(passes));
        for length in (0..own.len()).filter(|_| passes) {
            summary.sheet(check, &own[..length], Some(15));
        }
    }
}

/// Every byte as the qubit count and as the turn count of the first, the middle and the last gate.
pub fn lines(check: &mut Checker, summary: &mut Summary) {
    for (k, value) in (0..3).flat_map(|k| (0..=255u8).map(move |value| (k, value))) {
        let mut sheet = packed(&[(1, vec![1, 4]), (2, vec![4, 5, 1]), (1, vec![5, 5, 5, 1])]);
        sheet.extend([4; 300]);
        let good = sheet.clone();
        sheet[line(k)] = value;
        summary.sheet(check, &sheet, fifteen_unless((1..=2).contains(&value)));
        sheet.clone_from(&good);
        sheet[line(k) + 1] = value;
        summary.sheet(check, &sheet, fifteen_unless(value <= 6));
    }
}

/// Every offset to past the end of short sheets, the table's bytes as turns among them; and the last offsets of long sheets.
pub fn offsets(check: &mut Checker, summary: &mut Summary) {
    for turns in 0..=6 {
        for length in 5..=20 {
            for offset in (0..length + 9).chain([255, 256, 261, 512, 65_280, 65_535]) {
                let within = offset + turns as usize <= length;
                let wanted = if within { None } else { Some(15) };
                let number = summary.sheet(check, &of_one(turns, offset, length), wanted);
                let question = Question::of_sheet(&of_one(turns, offset, length));
                check.require(!within || number != 15, &question, "turns that are within the sheet gave 15");
            }
        }
        for length in (65_530..=65_543).chain([131_072, 131_077, 1 << 20]) {
            for offset in 65_529..=65_535 {
                let within = offset + turns as usize <= length;
                summary.sheet(check, &of_one(turns, offset, length), fifteen_unless(within));
            }
        }
    }
    let mut last = of_one(6, 65_535, 65_541);
    last[65_540] = 2;
    summary.sheet(check, &last, Some(16));
    summary.sheet(check, &last[..65_540], Some(15));
}

/// Every byte as each turn of a gate on one and on two qubits.
pub fn turns(check: &mut Checker, summary: &mut Summary) {
    for (qubits, count) in (1..=2).flat_map(|qubits| (1..=6).map(move |count| (qubits, count))) {
        for (place, turn) in (0..count).flat_map(|place| (0..=255).map(move |turn| (place, turn))) {
            let mut gates: [Gate; 3] = [(2, vec![15; 6]), (qubits, vec![5; count]), (1, vec![4; 6])];
            gates[1].1[place] = turn;
            let wanted = if allowed(qubits, turn) { 0 } else { 16 };
            summary.sheet(check, &packed(&gates), Some(wanted));
        }
    }
}

/// A bad turn in one gate and a wrong line in another or the same, in all places: 15, and 16 of the bad turn alone.
pub fn both_faults(check: &mut Checker, summary: &mut Summary) {
    let places = (1..=5).flat_map(|gates| (0..gates * gates).map(move |k| (gates, k / gates, k % gates)));
    for (gates, bad, wrong) in places {
        for turn in [0, 2, 8, 16, 255] {
            let mut lines = vec![(1, vec![1, 4, 5]); gates];
            lines[bad].1[turn as usize % 3] = turn;
            let sheet = packed(&lines);
            summary.sheet(check, &sheet, Some(16));
            for way in 0..WAYS {
                let mut sheet = sheet.clone();
                malform(&mut sheet, wrong, way);
                summary.sheet(check, &sheet, Some(15));
            }
        }
    }
}

/// 64 gates of six turns each, all of them played; then each turn bad, and each offset past the end.
pub fn full(check: &mut Checker, summary: &mut Summary, random: &mut Random) {
    let gates: Vec<Gate> = (0..64).map(|_| gate_of(random, 6)).collect();
    let sheet = packed(&gates);
    summary.sheet(check, &sheet, Some(0));
    for n in 2..=32 {
        let bytes = passing(random, &sheet, n, 500);
        summary.gates(check, &Question::of_gates(n as u64, &bytes, 2 * n).with_sheet(&sheet), Some(0));
        for k in 0..=255 {
            let wanted = if k < 64 { 0 } else { 9 };
            summary.gates(check, &Question::of_gates(n as u64, &[k, 0, 1], 2 * n).with_sheet(&sheet), Some(wanted));
        }
    }
    for k in 0..64 {
        for place in turns_at(&sheet, k) {
            let mut bad = sheet.clone();
            bad[place] = if gates[k].0 == 1 { 2 } else { 16 };
            summary.sheet(check, &bad, Some(16));
        }
        let mut past = sheet.clone();
        set_offset(&mut past, k, sheet.len() - 5);
        summary.sheet(check, &past, Some(15));
    }
}

/// Our six gates with each byte changed to each other value, and every gate of what passes.
pub fn changed_six(check: &mut Checker, summary: &mut Summary) {
    for (place, change) in (0..SIX_GATES.len()).flat_map(|place| (1..=255).map(move |change| (place, change))) {
        let mut sheet = SIX_GATES;
        sheet[place] ^= change;
        if summary.sheet(check, &sheet, None) == 0 {
            for k in 0..=7 {
                summary.gates(check, &Question::of_gates(2, &[k, 0, 1], 4).with_sheet(&sheet), None);
            }
        }
    }
}

/// Each refusal of a gate call beside each sheet: 1 and 2 come before the sheet's, those before 9, 10 and 11.
pub fn orders(check: &mut Checker, summary: &mut Summary) {
    let sheets: [(&[u8], u64); 6] = [
        (&[], 15),
        (&[1, 2, 7, 5, 0], 15),
        (&[2, 2, 1, 9, 0, 3, 1, 9, 0, 0], 15),
        (&[2, 2, 0, 9, 0, 2, 1, 9, 0, 0], 16),
        (&[1, 2, 0, 5, 0], 0),
        (&[1, 2, 1, 3, 0], 0),
    ];
    let widths = (0..=33).chain([64, 1 << 16, 1 << 32, (1 << 32) + 2, 1 << 63, (1 << 63) + 1, u64::MAX]);
    for (n, (sheet, number)) in widths.flat_map(|n| sheets.map(|sheet| (n, sheet))) {
        let rows = 2 * (n as usize).min(40);
        for out in [0, rows.saturating_sub(1), rows, rows + 1] {
            for (gate, refused) in [([9, 0, 0], 9), ([1, 1, 1], 9), ([0, n as u8, 0], 10), ([0, 0, 0], 11)] {
                let of_gate = if n == 0 && refused == 11 { 10 } else { refused };
                let wanted = match (n <= 32, out == rows, number) {
                    (false, _, _) => 1,
                    (true, false, _) => 2,
                    (true, true, 0) => of_gate,
                    (true, true, number) => number,
                };
                let question = Question::of_gates(n, &gate, out).with_sheet(sheet);
                summary.gates(check, &question, Some(wanted));
            }
        }
    }
}

/// Gates without turns change nothing, and are asked as others are: every two qubits around n.
pub fn no_turns(check: &mut Checker, summary: &mut Summary) {
    let sheet = packed(&[(1, vec![]), (2, vec![])]);
    for n in 0..=32u8 {
        let qubits = [0, 1, n.saturating_sub(1), n, n + 1, 255];
        for (gate, a, b) in (0..3).flat_map(|gate| qubits.map(|a| qubits.map(|b| (gate, a, b)))).flatten() {
            let wanted = match gate {
                2 => 9,
                _ if a >= n || gate == 1 && b >= n => 10,
                1 if a == b => 11,
                _ => 0,
            };
            let question = Question::of_gates(n.into(), &[gate, a, b], 2 * n as usize).with_sheet(&sheet);
            let seen = summary.gates(check, &question, Some(wanted));
            let identity = crate::words::identity(n.into());
            check.require(wanted != 0 || seen.out == identity, &question, "a gate without turns changed something");
        }
    }
}
