//! The same of the book: the model's lengths are the least, replies that do not go together and totals that are wrong are seen to be
//! so, and so is a length that is not written, or only in part, or on a refusal.
use crate::book::{code_of, length, rows_of};
use crate::check::expected;
use crate::codes::{flaw, questions, Summary, FILLS};
use crate::library::{Question, Seen};
use crate::selftest::reports;
use crate::words::{identity, product, residue_rank, symplectic, turn};

const HADAMARDS: u16 = 0x2184;
const SWAP: u16 = 0x4812;
const FOUR_TURNS: u16 = 0x31AE;
/// The identity with Z of one qubit and X of the other exchanged: not symplectic.
const EXCHANGED: u16 = 0x8241;

/// 0 for the identity, and for any other action one more than the least that one more turn leaves: only least lengths are such.
fn is_least(code: u16, turns: u64) -> bool {
    let after = |v: u64| {
        let mut rows = rows_of(code);
        turn(2, &mut rows, v);
        length(code_of(&rows)).map(|turns| turns + 1)
    };
    if rows_of(code) == identity(2) {
        turns == 0
    } else {
        (1..16).map(after).min() == Some(Some(turns))
    }
}

/// The model's lengths of these actions are right, and so are all; the codes in its book are those of symplectic actions.
pub fn lengths() -> Result<(), String> {
    let actions: [(u16, &[u64]); 9] = [
        (0x8421, &[]),
        (0x8124, &[5]),
        (HADAMARDS, &[5, 10]),
        (0x48DE, &[3, 15]),
        (0xC423, &[4, 6, 2]),
        (0x8469, &[4, 12, 8]),
        (SWAP, &[3, 15, 12]),
        (FOUR_TURNS, &[1, 4, 3, 8]),
        (0x318C, &[1, 4, 3, 8, 2]),
    ];
    for (code, list) in actions {
        if code_of(&product(2, list)) != code || length(code) != Some(list.len() as u64) {
            return Err(format!("the model's book does not have {code:#x} with {list:?}"));
        }
    }
    for code in 0..=u16::MAX {
        if code_of(&rows_of(code)) != code || length(code).is_some() != symplectic(2, &rows_of(code)) {
            return Err(format!("{code:#x} is misread, or is wrongly in the model's book or not in it"));
        }
        if length(code).is_some_and(|turns| !is_least(code, turns)) {
            return Err(format!("the model's length of {code:#x} is not the least"));
        }
    }
    Ok(())
}

/// Replies that do not go together, on SWAP, on an action that is not self-inverse and on one that is not symplectic.
pub fn replies() -> Result<(), String> {
    let other = code_of(&product(2, &[1, 4]));
    let changes: [(u16, fn(&mut [Seen; 3])); 15] = [
        (SWAP, |[book, _, _]| book.number = 4),
        (SWAP, |[book, _, _]| book.length -= 1),
        (SWAP, |[book, _, _]| book.length += 1),
        (SWAP, |[_, minimal, _]| minimal.number = 4),
        (SWAP, |[_, minimal, _]| minimal.number = 6),
        (SWAP, |[_, minimal, _]| minimal.count += 1),
        (SWAP, |[_, _, self_inverse]| self_inverse.number = 4),
        (SWAP, |[_, _, self_inverse]| self_inverse.count -= 1),
        (other, |[book, _, _]| book.length += 1),
        (other, |[_, minimal, _]| minimal.count -= 1),
        (other, |[_, _, self_inverse]| self_inverse.number = 0),
        (other, |[_, _, self_inverse]| self_inverse.number = 4),
        (EXCHANGED, |[book, _, _]| book.number = 0),
        (EXCHANGED, |[_, minimal, _]| minimal.number = 0),
        (EXCHANGED, |[_, _, self_inverse]| self_inverse.number = 17),
    ];
    for (k, (code, change)) in changes.into_iter().enumerate() {
        let mut seen = questions(code, 7).map(|question| expected(&question));
        let before = flaw(&seen);
        change(&mut seen);
        if before.is_some() || flaw(&seen).is_none() {
            return Err(format!("replies {k} on a code are misjudged"));
        }
    }
    Ok(())
}

/// The totals of the model's book, changed on some codes, are right.
fn right_with(change: fn(u16, &mut Seen)) -> bool {
    let mut summary = Summary::default();
    for code in 0..=u16::MAX {
        let mut seen = expected(&Question::of_code(code, u64::MAX));
        change(code, &mut seen);
        summary.add(residue_rank(2, &rows_of(code)) as u64, &seen);
    }
    summary.right()
}

/// The model's book has the totals that are wanted, and one with other lengths or codes is seen not to.
pub fn totals() -> Result<(), String> {
    let changes: [fn(u16, &mut Seen); 6] = [
        |code, seen| seen.length += u64::from(code == SWAP),
        // as many that are r + 1, but one fewer of length 4
        |code, seen| seen.length -= u64::from(code == FOUR_TURNS),
        |code, seen| seen.length |= if code == SWAP { u64::MAX } else { 0 },
        |code, seen| seen.number |= if code == SWAP { 4 } else { 0 },
        |code, seen| seen.number &= if code == EXCHANGED { 0 } else { 4 },
        // as many of each length, but one fewer that is r + 1
        |code, seen| seen.length ^= if code == SWAP || code == FOUR_TURNS { 7 } else { 0 },
    ];
    if !right_with(|_, _| ()) || changes.into_iter().any(right_with) {
        return Err("the totals of a book are misjudged".to_string());
    }
    Ok(())
}

/// How many reports the fills give together where the length that is left is made from what it held before.
fn by_fills(code: u16, left: impl Fn(u64) -> u64) -> u64 {
    let by = |fill| reports(&Question::of_code(code, fill), Some(&|lent, _| lent.length.content()[0] = left(fill)));
    FILLS.map(by).iter().sum()
}

/// Each length that is not written, or is in its low byte only, and each that a refusal writes is seen by one fill at least; how
/// many reports there were, or what went wrong.
pub fn planted() -> Result<u64, String> {
    let mut seen = 0;
    let first_of = |turns| (0..=u16::MAX).find(|code| length(*code) == Some(turns));
    for code in (0..6).filter_map(first_of).chain([0, EXCHANGED, u16::MAX]) {
        let planted: Vec<u64> = match length(code) {
            // all bits are kept, or all but the low byte
            Some(turns) => [!0, !255].map(|kept| by_fills(code, |before| before & kept | turns & !kept)).to_vec(),
            None => (0..6).map(|turns| by_fills(code, |_| turns)).collect(),
        };
        if planted.contains(&0) {
            return Err(format!("damage to the length of {code:#x} was not seen"));
        }
        seen += planted.iter().sum::<u64>();
    }
    Ok(seen)
}
