//! The gate sheet of the model (request 8): its gates, or the number of its refusal.
use crate::model::ask;

/// A gate on one or two qubits, its turns as bytes.
pub struct Gate {
    qubits: usize,
    turns: Vec<u8>,
}

/// The gates of a sheet: 15 of all of it, then 16.
pub fn read(sheet: &[u8]) -> Result<Vec<Gate>, u64> {
    let gates = gates(sheet).ok_or(15u64)?;
    ask(gates.iter().all(|gate| gate.turns.iter().all(|turn| gate.allows(*turn))), 16)?;
    Ok(gates)
}

/// None where a count is missing or out of its range, a gate is cut short, or its turns pass the end.
fn gates(sheet: &[u8]) -> Option<Vec<Gate>> {
    let count = sheet.first().filter(|count| (1..=64).contains(*count))?;
    (0..*count as usize).map(|k| gate(sheet, sheet.get(1 + 4 * k..5 + 4 * k)?)).collect()
}

fn gate(sheet: &[u8], line: &[u8]) -> Option<Gate> {
    let (qubits, turns) = (line[0] as usize, line[1] as usize);
    let offset = line[2] as usize + 256 * line[3] as usize;
    if !(1..=2).contains(&qubits) || turns > 6 {
        return None;
    }
    Some(Gate { qubits, turns: sheet.get(offset..offset + turns)?.to_vec() })
}

impl Gate {
    /// Bits 1 and 3 of a turn are of the second qubit.
    fn allows(&self, turn: u8) -> bool {
        (1..=15).contains(&turn) && (self.qubits == 2 || turn & 0b1010 == 0)
    }

    /// The turns of the gate on a and, if it reads that, b; or 10 or 11.
    pub fn played(&self, n: usize, a: usize, b: usize) -> Result<Vec<u64>, u64> {
        let read = &[a, b][..self.qubits];
        ask(read.iter().all(|q| *q < n), 10)?;
        ask(self.qubits == 1 || a != b, 11)?;
        Ok(self.turns.iter().map(|turn| vector(n, *turn, read)).collect())
    }
}

/// Bit k of a turn is x of the k-th of its qubits, bit 2 + k its z.
fn vector(n: usize, turn: u8, qubits: &[usize]) -> u64 {
    let bit = |k: usize| u64::from(turn) >> k & 1;
    qubits.iter().enumerate().fold(0, |v, (k, q)| v | bit(k) << q | bit(2 + k) << (n + q))
}
