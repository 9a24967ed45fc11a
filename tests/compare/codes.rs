//! Every 16-bit code asked of the book, and its rows of the calls for the minimal list and for the list of a self-inverse action: the
//! three replies go together, and the book has as many actions of each length as there are.
use crate::book::rows_of;
use crate::check::Checker;
use crate::library::{Call, Question, Seen};
use crate::words::residue_rank;

/// What the length holds before: each bit is 0 once and 1 once, so that what is written, or is not, shows.
pub const FILLS: [u64; 2] = [0, u64::MAX];
/// The most looks of any search on two qubits.
const BUDGET: u64 = 57;

/// A code asked of the book, its rows of the minimal list and of that of a self-inverse action.
pub fn questions(code: u16, fill: u64) -> [Question; 3] {
    let of_rows = |call| Question::of_words(call, 2, &rows_of(code), 5);
    [Question::of_code(code, fill), of_rows(Call::Minimal { budget: BUDGET }), of_rows(Call::SelfInverse)]
}

/// What keeps the replies to these from going together, by facts alone.
pub fn flaw([book, minimal, self_inverse]: &[Seen; 3]) -> Option<&'static str> {
    if minimal.number != book.number {
        Some("the minimal list is not answered or refused as the book is")
    } else if (self_inverse.number == 4) != (book.number == 4) {
        Some("the list of a self-inverse action is refused with 4 and the book not, or the book alone")
    } else if minimal.number == 0 && minimal.count != book.length {
        Some("the minimal list is not as long as the book says")
    } else if self_inverse.number == 0 && self_inverse.count != book.length {
        Some("the list of a self-inverse action is not as long as the book says")
    } else {
        None
    }
}

/// How many codes are in the library's book, by length, and how many are not; how many of the lengths are r + 1.
#[derive(Default)]
pub struct Summary {
    lengths: [u64; 6],
    refused: u64,
    extra_turn: u64,
}

impl Summary {
    /// A length past 5 is in no count.
    pub fn add(&mut self, rank: u64, seen: &Seen) {
        self.refused += u64::from(seen.number == 4);
        if seen.number == 0 {
            self.extra_turn += u64::from(seen.length == rank + 1);
            self.lengths.get_mut(seen.length as usize).into_iter().for_each(|codes| *codes += 1);
        }
    }

    /// Whether these are the totals of the 720 actions.
    pub fn right(&self) -> bool {
        self.lengths == [1, 15, 85, 225, 274, 120] && self.refused == 65_536 - 720 && self.extra_turn == 225
    }

    pub fn print(&self) {
        let Summary { lengths, refused, extra_turn } = self;
        let counts: Vec<String> = lengths.iter().enumerate().map(|(k, codes)| format!("{k}: {codes}")).collect();
        let counts = counts.join(", ");
        println!("\nthe book by length: {counts}; {extra_turn} with r + 1 turns; {refused} codes are not in it");
        if !self.right() {
            println!("not the totals of the two-qubit actions");
        }
    }
}

pub fn every_code(check: &mut Checker) -> Summary {
    let mut summary = Summary::default();
    for code in 0..=u16::MAX {
        check.call("every code", &Question::of_code(code, FILLS[0]));
        let asked = questions(code, FILLS[1]);
        let replies = asked.each_ref().map(|question| check.call("every code", question));
        let wrong = flaw(&replies);
        check.require(wrong.is_none(), &asked[0], wrong.unwrap_or_default());
        let rank = residue_rank(2, &rows_of(code)) as u64;
        let [book, minimal, self_inverse] = &replies;
        summary.add(rank, book);
        if minimal.number == 0 {
            let tally = check.tally("every code");
            tally.actions += 1;
            tally.extra_turn += u64::from(minimal.count == rank + 1);
            tally.most_looks = tally.most_looks.max(minimal.looks);
            tally.self_inverse += u64::from(self_inverse.number == 0);
        }
    }
    summary
}
