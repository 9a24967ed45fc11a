//! Gate sheets that are made to pass their questions, or to be refused.
use crate::layers::Random;

/// A gate to be put on a sheet: its qubit count and its turns.
pub type Gate = (u8, Vec<u8>);

/// X, Z and Y of the first qubit: all that a gate on one qubit may have.
const ON_ONE: [u8; 3] = [1, 4, 5];

pub fn allowed(qubits: u8, turn: u8) -> bool {
    ON_ONE.contains(&turn) || qubits == 2 && (1..=15).contains(&turn)
}

/// The scope paper's table as turns of a sheet.
pub fn our_six() -> [Gate; 6] {
    [(1, vec![5]), (1, vec![4]), (1, vec![1]), (2, vec![4, 6, 2]), (2, vec![4, 12, 8]), (2, vec![3, 15, 12])]
}

/// A gate of this many turns.
pub fn gate_of(random: &mut Random, turns: usize) -> Gate {
    let qubits = 1 + random.below(2) as u8;
    let turn = |random: &mut Random| if qubits == 1 { ON_ONE[random.below(3)] } else { 1 + random.below(15) as u8 };
    (qubits, (0..turns).map(|_| turn(random)).collect())
}

pub fn gate(random: &mut Random) -> Gate {
    let turns = random.below(7);
    gate_of(random, turns)
}

/// Few gates, and now and then up to 64.
fn gate_count(random: &mut Random) -> usize {
    let most = [3, 8, 64][random.below(3)];
    1 + random.below(most)
}

/// The gates, then their turns in the same order and nothing else.
pub fn packed(gates: &[Gate]) -> Vec<u8> {
    let mut sheet = vec![gates.len() as u8];
    let mut offset = 1 + 4 * gates.len();
    for (qubits, turns) in gates {
        let [low, high] = (offset as u16).to_le_bytes();
        sheet.extend([*qubits, turns.len() as u8, low, high]);
        offset += turns.len();
    }
    sheet.extend(gates.iter().flat_map(|(_, turns)| turns));
    sheet
}

pub fn any_packed(random: &mut Random) -> Vec<u8> {
    let gates: Vec<Gate> = (0..gate_count(random)).map(|_| gate(random)).collect();
    packed(&gates)
}

/// The place of a gate's four bytes.
pub fn line(k: usize) -> usize {
    1 + 4 * k
}

/// Where a gate's turns are.
pub fn turns_at(sheet: &[u8], k: usize) -> std::ops::Range<usize> {
    let at = line(k);
    let offset = u16::from_le_bytes([sheet[at + 2], sheet[at + 3]]) as usize;
    offset..offset + sheet[at + 1] as usize
}

/// The offset is at most 65,535.
pub fn set_offset(sheet: &mut [u8], k: usize, offset: usize) {
    sheet[line(k) + 2..line(k + 1)].copy_from_slice(&(offset as u16).to_le_bytes());
}

/// A sheet that passes: turns are looked for anywhere, in the table too, so that they overlap, and bytes are left over.
pub fn scattered(random: &mut Random) -> Vec<u8> {
    let gates = gate_count(random);
    let most = if random.one_in(300) { 66_000 } else { 60 };
    let more = 6 + random.below(most);
    let mut sheet = vec![gates as u8];
    for _ in 0..gates {
        sheet.extend([1 + random.below(2) as u8, random.below(7) as u8, 0, 0]);
    }
    let most = [6, 15, 256][random.below(3)];
    sheet.extend((0..more).map(|_| random.below(most) as u8));
    // turns that every gate may have
    let common = line(gates) + random.below(more.min(60_000) - 5);
    sheet[common..common + 6].fill_with(|| ON_ONE[random.below(3)]);
    for k in random.shuffled(gates) {
        settle(random, &mut sheet, k, common);
    }
    sheet
}

/// Gives a gate an offset at which it may have the turns, at last that of the common turns. Those of other gates do not change by
/// it: where it is written there were zeros.
fn settle(random: &mut Random, sheet: &mut [u8], k: usize, common: usize) {
    let last = (sheet.len() - sheet[line(k) + 1] as usize).min(65_535);
    let table = line(sheet[0] as usize);
    for _ in 0..20 {
        let limit = if random.one_in(3) { table } else { last + 1 };
        set_offset(sheet, k, random.below(limit).min(last));
        if turns_at(sheet, k).all(|place| allowed(sheet[line(k)], sheet[place])) {
            return;
        }
    }
    set_offset(sheet, k, common);
}

/// Whether turns of a sheet that passes lie in its table, and whether two gates share some.
pub fn overlaps(sheet: &[u8]) -> [bool; 2] {
    let gates = sheet[0] as usize;
    let mut turns: Vec<_> = (0..gates).map(|k| turns_at(sheet, k)).filter(|turns| !turns.is_empty()).collect();
    turns.sort_by_key(|turns| turns.start);
    let in_table = turns.first().is_some_and(|turns| turns.start < line(gates));
    [in_table, turns.windows(2).any(|pair| pair[1].start < pair[0].end)]
}

/// How many ways there are to be malformed.
pub const WAYS: usize = 11;

/// Makes the line of gate k wrong: its qubit count, its turn count, its offset (of short sheets), or its length.
pub fn malform(sheet: &mut Vec<u8>, k: usize, way: usize) {
    let at = line(k);
    let past = sheet.len() + 1 - sheet[at + 1] as usize;
    match way {
        0..=2 => sheet[at] = [0, 3, 255][way],
        3 | 4 => sheet[at + 1] = [7, 255][way - 3],
        5 | 6 => set_offset(sheet, k, [past, 65_535][way - 5]),
        _ => sheet.truncate(at + way - 7),
    }
}

/// Makes one turn of gate k bad, in a packed sheet; none where it has no turns.
pub fn spoil_turn(random: &mut Random, sheet: &mut [u8], k: usize) -> Option<()> {
    let qubits = sheet[line(k)];
    let bad: Vec<u8> = (0..=17).chain([32, 128, 255]).filter(|turn| !allowed(qubits, *turn)).collect();
    let turns = turns_at(sheet, k);
    if turns.is_empty() {
        return None;
    }
    sheet[turns.start + random.below(turns.len())] = bad[random.below(bad.len())];
    Some(())
}
