//! The same of gate sheets: the model gives numbers and actions worked out by hand, sheets are what they are made to be, and our
//! six gates are compared with the scope paper's table.
use crate::check::{expected, expected_of_six, unlike};
use crate::layers::Random;
use crate::library::{Question, SIX_GATES};
use crate::model::{gates, sheet_number, six_gates, Reply};
use crate::sheet_maker::{any_packed, malform, our_six as table, overlaps, packed, scattered, spoil_turn, WAYS};
use crate::sheets::Summary;
use crate::words::identity;

/// The model's number of these sheets.
pub fn numbers() -> Result<(), String> {
    let sheets: [(&[u8], u64); 27] = [
        (&[], 15),
        (&[0], 15),
        (&[1], 15),
        (&[1, 1, 0, 0], 15),
        (&[1, 1, 0, 0, 0], 0),
        (&[2, 1, 0, 0, 0], 15),
        (&[65, 1, 0, 0, 0], 15),
        (&[1, 0, 0, 0, 0], 15),
        (&[1, 3, 0, 0, 0], 15),
        (&[1, 1, 0, 5, 0], 0),
        (&[1, 1, 0, 6, 0], 15),
        (&[1, 1, 0, 5, 1], 15),
        (&[1, 1, 1, 5, 0], 15),
        (&[1, 1, 1, 5, 0, 5], 0),
        (&[1, 1, 1, 5, 0, 5, 99], 0),
        (&[1, 1, 1, 5, 0, 0], 16),
        (&[1, 1, 1, 5, 0, 2], 16),
        (&[1, 1, 1, 5, 0, 12], 16),
        (&[1, 2, 1, 5, 0, 12], 0),
        (&[1, 2, 1, 5, 0, 16], 16),
        (&[1, 2, 6, 5, 0, 1, 2, 3, 4, 5, 15], 0),
        (&[1, 2, 7, 5, 0, 1, 2, 3, 4, 5, 15, 1], 15),
        // the one turn is a byte of the table: the gate count, the offset, the offset's upper byte
        (&[1, 1, 1, 0, 0], 0),
        (&[1, 2, 1, 3, 0], 0),
        (&[1, 2, 1, 4, 0], 16),
        // a turn that is 0, and a qubit count behind it that is 3
        (&[2, 1, 1, 9, 0, 3, 1, 9, 0, 0], 15),
        (&[2, 1, 1, 9, 0, 1, 1, 9, 0, 0], 16),
    ];
    if let Some((sheet, wanted)) = sheets.iter().find(|(sheet, wanted)| sheet_number(sheet) != *wanted) {
        return Err(format!("the model's number of {sheet:?} is not {wanted}"));
    }
    let of_gates = |gates| sheet_number(&packed(&vec![(1, vec![4]); gates]));
    if [64, 65, 255].map(of_gates) != [0, 15, 15] {
        return Err("the model's most gates of a sheet are not 64".to_string());
    }
    Ok(())
}

/// What one gate call gives by the model.
fn reply(n: u64, sheet: &[u8], bytes: &[u8]) -> Reply {
    gates(n, sheet, bytes, 2 * n as usize)
}

/// The model's actions of these gates.
pub fn actions() -> Result<(), String> {
    let native = packed(&[(2, vec![3, 15]), (2, vec![4, 12, 8]), (1, vec![5]), (2, vec![6]), (1, vec![])]);
    let ordered = packed(&[(1, vec![1, 4]), (1, vec![4, 1]), (1, vec![1, 4, 1, 4, 1, 4])]);
    let replies: [(Reply, &[u64]); 15] = [
        // iSWAP: X1 to Z1 Y2, X2 to Y1 Z2, and the two Z exchanged; in either order of the qubits
        (reply(2, &native, &[0, 0, 1]), &[0b1110, 0b1101, 0b1000, 0b0100]),
        (reply(2, &native, &[0, 1, 0]), &[0b1110, 0b1101, 0b1000, 0b0100]),
        // CZ: each X gains the other Z
        (reply(2, &native, &[1, 0, 1]), &[0b1001, 0b0110, 0b0100, 0b1000]),
        // H: X and Z exchanged, whatever b is
        (reply(1, &native, &[2, 0, 255]), &[2, 1]),
        (reply(2, &native, &[2, 1, 1]), &[1, 8, 4, 2]),
        // the turn of Z of the first and X of the second qubit, in both directions
        (reply(2, &native, &[3, 0, 1]), &[0b0111, 0b0010, 0b0100, 0b1110]),
        (reply(3, &native, &[3, 2, 0]), &[1, 2, 4 ^ 33, 8 ^ 33, 16, 32]),
        // no turns, and no gates
        (reply(2, &native, &[4, 1, 7]), &[1, 2, 4, 8]),
        (reply(2, &native, &[0, 0]), &[1, 2, 4, 8]),
        // H, then CZ on the same qubit
        (reply(2, &native, &[2, 0, 0, 1, 0, 1]), &[0b0100, 0b0110, 0b1001, 0b1000]),
        // X then Z: X to Y, Z to X; Z then X, which undoes that; and X then Z three times, which changes nothing
        (reply(1, &ordered, &[0, 0, 0]), &[3, 1]),
        (reply(1, &ordered, &[1, 0, 0]), &[2, 3]),
        (reply(1, &ordered, &[2, 0, 0]), &[1, 2]),
        // turns in the table: XX is the offset 3; X of the second, XX, X of the first are a qubit count, a turn count and an offset
        (reply(2, &[1, 2, 1, 3, 0], &[0, 0, 1]), &[1, 2, 7, 11]),
        (reply(2, &[1, 2, 3, 1, 0], &[0, 0, 1]), &[1, 2, 6, 9]),
    ];
    match replies.iter().position(|(reply, rows)| reply != &Ok((rows.to_vec(), 0))) {
        Some(k) => Err(format!("the model's action {k} on a sheet is {:?}, not {:?}", replies[k].0, replies[k].1)),
        None => Ok(()),
    }
}

/// The model's refusals of these gate calls, in the order of the questions.
pub fn refusals() -> Result<(), String> {
    let sheet = packed(&[(2, vec![]), (1, vec![])]);
    let replies = [
        (gates(33, &[], &[9], 5), 1),
        (gates(2, &[], &[9, 9, 9], 5), 2),
        (reply(2, &[], &[]), 15),
        (reply(2, &[1, 1, 1, 5, 0], &[9, 9, 9]), 15),
        (reply(2, &[1, 1, 1, 4, 0], &[9, 9, 9]), 16),
        (reply(2, &sheet, &[2, 9, 9]), 9),
        (reply(2, &sheet, &[0, 2, 2]), 10),
        (reply(2, &sheet, &[0, 0, 2]), 10),
        (reply(2, &sheet, &[1, 2, 0]), 10),
        (reply(2, &sheet, &[0, 1, 1]), 11),
        (reply(2, &sheet, &[1, 0, 9, 0, 1, 1, 2, 9, 9]), 11),
        (reply(0, &sheet, &[1, 0, 0]), 10),
    ];
    match replies.iter().position(|(reply, number)| *reply != Err(*number)) {
        Some(k) => Err(format!("the model's refusal {k} of a gate call is {:?}, not {}", replies[k].0, replies[k].1)),
        None => Ok(()),
    }
}

/// Our six gates on any two of two qubits, and one that is not there.
fn single_gates() -> impl Iterator<Item = [u8; 3]> {
    (0..7).flat_map(|gate| [[gate, 0, 1], [gate, 1, 0], [gate, 1, 1]])
}

/// The sheet of our six has the scope paper's turns and actions, and one bit changed in it gives others. But the offset of CX may
/// be one more: its three turns, which commute, and the first of CZ make it in another order.
pub fn our_six() -> Result<(), String> {
    let same = |sheet: &[u8]| single_gates().all(|gate| reply(2, sheet, &gate) == six_gates(2, &gate, 4));
    if packed(&table()) != SIX_GATES || !same(&SIX_GATES) {
        return Err("the sheet of our six gates is not the scope paper's table".to_string());
    }
    for bit in 0..8 * SIX_GATES.len() {
        let mut sheet = SIX_GATES;
        sheet[bit / 8] ^= 1 << (bit % 8);
        if same(&sheet) != (bit == 8 * 15) {
            return Err(format!("bit {bit} of our six gates changed is misjudged"));
        }
    }
    Ok(())
}

/// Sheets made to pass do, by the model, and those made to be refused are. Where no sheet was compared, all is missing.
pub fn makers() -> Result<(), String> {
    let mut random = Random(8);
    for k in 0..2_000 {
        let mut sheet = any_packed(&mut random);
        let number = sheet_number(&sheet);
        let place = random.below(sheet[0] as usize);
        let bad = spoil_turn(&mut random, &mut sheet, place).map_or(16, |()| sheet_number(&sheet));
        malform(&mut sheet, place, k % WAYS);
        if [number, bad, sheet_number(&sheet)] != [0, 16, 15] {
            return Err(format!("packed sheet {k} is not what it was made to be"));
        }
    }
    let sheets: Vec<Vec<u8>> = (0..2_000).map(|_| scattered(&mut random)).collect();
    let with = |place: usize| sheets.iter().filter(|sheet| overlaps(sheet)[place]).count();
    if sheets.iter().any(|sheet| sheet_number(sheet) != 0) || with(0) < 500 || with(1) < 500 {
        return Err("scattered sheets do not pass, or do not overlap".to_string());
    }
    match Summary::new("none").missing().len() {
        14 => Ok(()),
        _ => Err("what was not compared is not missed".to_string()),
    }
}

/// A gate call on our six is held beside both models, and each of them is seen to differ.
pub fn both_models() -> Result<(), String> {
    let question = Question::of_gates(2, &[5, 0, 1], 4);
    let (want, of_six) = (expected(&question), expected_of_six(&question));
    let mut other = want.clone();
    other.out.copy_from_slice(&identity(2));
    let longer = question.clone().with_sheet(&[&SIX_GATES[..], &[0]].concat());
    let seen = [unlike(&want, &other, of_six.as_ref()), unlike(&want, &want, Some(&other))];
    let not_seen = [unlike(&want, &want, of_six.as_ref()), unlike(&want, &want, None)];
    if of_six.as_ref() != Some(&want) || seen.contains(&None) || not_seen != [None, None] {
        return Err("our six gates are not held beside both models".to_string());
    }
    if expected_of_six(&longer).is_some() || expected_of_six(&Question::of_sheet(&SIX_GATES)).is_some() {
        return Err("the scope paper's table is held beside another call".to_string());
    }
    Ok(())
}
