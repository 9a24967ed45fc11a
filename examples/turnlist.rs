//! The calls of `include/turnlist.h` as safe functions. Slices go in; the words that a call writes are lent from here, and
//! an answer is a `Vec` of as many words as were written, or one of the slices itself.
use std::fmt;

/// Our six gates as a sheet, the bytes of `turnlist_six_gates`.
pub const SIX_GATES: [u8; 37] = [
    6, 1, 1, 25, 0, 1, 1, 26, 0, 1, 1, 27, 0, 2, 3, 28, 0, 2, 3, 31, 0, 2, 3, 34, 0, 5, 4, 1, 4, 6, 2, 4, 12, 8, 3, 15, 12,
];

pub const H: u8 = 0;
pub const S: u8 = 1;
pub const ROOT_X: u8 = 2;
pub const CX: u8 = 3;
pub const CZ: u8 = 4;
pub const SWAP: u8 = 5;

/// A gate's number, a and b. Gates on one qubit do not read b.
pub type Gate = [u8; 3];

const MOST_QUBITS: usize = 32;

/// How many words of a memory hold one failed subspace.
pub const ENTRY_WORDS: usize = 65;

/// The minimal list, and the looks of its search.
pub struct Minimal {
    pub turns: Vec<u64>,
    pub looks: u64,
}

/// The first question that was answered no. `OutputTooShort` is never met here.
#[derive(Clone, Copy, Debug, PartialEq, Eq)]
pub enum Refusal {
    TooManyQubits = 1,
    WrongRowCount,
    RowTooWide,
    NotSymplectic,
    OutputTooShort,
    Spent,
    VectorTooWide = 8,
    UnknownGate,
    QubitTooHigh,
    EqualQubits,
    NeitherMatches = 14,
    MalformedSheet,
    BadTurn,
    NotSelfInverse,
}

impl Refusal {
    const ALL: [Refusal; 14] = [
        Refusal::TooManyQubits,
        Refusal::WrongRowCount,
        Refusal::RowTooWide,
        Refusal::NotSymplectic,
        Refusal::OutputTooShort,
        Refusal::Spent,
        Refusal::VectorTooWide,
        Refusal::UnknownGate,
        Refusal::QubitTooHigh,
        Refusal::EqualQubits,
        Refusal::NeitherMatches,
        Refusal::MalformedSheet,
        Refusal::BadTurn,
        Refusal::NotSelfInverse,
    ];

    /// The refusal that a call returns this number for.
    fn of(number: u64) -> Refusal {
        Refusal::ALL.into_iter().find(|refusal| *refusal as u64 == number).expect("a refusal of turnlist.h")
    }

    pub fn meaning(self) -> &'static str {
        match self {
            Refusal::TooManyQubits => "more than 32 qubits",
            Refusal::WrongRowCount => "not exactly 2n rows",
            Refusal::RowTooWide => "a row with bits from 2n up",
            Refusal::NotSymplectic => "the rows are not symplectic",
            Refusal::OutputTooShort => "too few output words",
            Refusal::Spent => "the search would look further than the budget",
            Refusal::VectorTooWide => "a vector with bits from 2n up",
            Refusal::UnknownGate => "no such gate",
            Refusal::QubitTooHigh => "a qubit that is not there",
            Refusal::EqualQubits => "two equal qubits",
            Refusal::NeitherMatches => "neither list has the action for its product",
            Refusal::MalformedSheet => "a sheet whose counts, lines or offsets are wrong",
            Refusal::BadTurn => "a sheet with a turn that is zero, above 15, or on a second qubit that is not there",
            Refusal::NotSelfInverse => "the action is not its own inverse",
        }
    }
}

impl fmt::Display for Refusal {
    fn fmt(&self, f: &mut fmt::Formatter) -> fmt::Result {
        write!(f, "refused, {}: {}", *self as u64, self.meaning())
    }
}

impl std::error::Error for Refusal {}

/// A list of turns whose product is the action; no list of it is shorter.
pub fn minimal(n: u64, rows: &[u64], budget: u64) -> Result<Minimal, Refusal> {
    let mut out = [0; 2 * MOST_QUBITS + 1];
    let (mut count, mut looks) = (0, 0);
    // SAFETY: each pointer goes with the length of its own slice, and what is lent for writing is local.
    let reply = unsafe {
        turnlist_minimal(n, rows.as_ptr(), rows.len(), budget, out.as_mut_ptr(), out.len(), &mut count, &mut looks)
    };
    let turns = written(reply, &out, count)?;
    Ok(Minimal { turns, looks })
}

/// The same with a lent memory of failed subspaces, `ENTRY_WORDS` words each, of which none is searched twice. Wherever
/// `minimal` answers the list is the same; the looks are never more.
pub fn minimal_remembering(n: u64, rows: &[u64], budget: u64, memory: &mut [u64]) -> Result<Minimal, Refusal> {
    let mut out = [0; 2 * MOST_QUBITS + 1];
    let (mut count, mut looks) = (0, 0);
    let (held, words) = (memory.as_mut_ptr(), memory.len());
    let (to, room) = (out.as_mut_ptr(), out.len());
    // SAFETY: as in `minimal`; the memory is lent for writing, so that nothing else has it.
    let reply = unsafe {
        turnlist_minimal_remembering(n, rows.as_ptr(), rows.len(), budget, held, words, to, room, &mut count, &mut looks)
    };
    let turns = written(reply, &out, count)?;
    Ok(Minimal { turns, looks })
}

/// A list of turns whose product is the action, quickly found.
pub fn greedy(n: u64, rows: &[u64]) -> Result<Vec<u64>, Refusal> {
    let mut out = [0; 4 * MOST_QUBITS + 2];
    let mut count = 0;
    // SAFETY: as in `minimal`.
    let reply = unsafe { turnlist_greedy(n, rows.as_ptr(), rows.len(), out.as_mut_ptr(), out.len(), &mut count) };
    written(reply, &out, count)
}

/// The reduced basis, pivots ascending, of all vectors that the action leaves as they are.
pub fn fixed_space(n: u64, rows: &[u64]) -> Result<Vec<u64>, Refusal> {
    let mut out = [0; 2 * MOST_QUBITS];
    let mut count = 0;
    // SAFETY: as in `minimal`.
    let reply = unsafe { turnlist_fixed_space(n, rows.as_ptr(), rows.len(), out.as_mut_ptr(), out.len(), &mut count) };
    written(reply, &out, count)
}

/// A list of turns whose product is the action, for one that is its own inverse: the turns commute, and no list of it is
/// shorter. There is no search.
pub fn self_inverse(n: u64, rows: &[u64]) -> Result<Vec<u64>, Refusal> {
    let mut out = [0; 2 * MOST_QUBITS + 1];
    let mut count = 0;
    // SAFETY: as in `minimal`.
    let reply = unsafe { turnlist_self_inverse(n, rows.as_ptr(), rows.len(), out.as_mut_ptr(), out.len(), &mut count) };
    written(reply, &out, count)
}

/// The 2n rows of the product of any list.
pub fn rebuild(n: u64, vectors: &[u64]) -> Result<Vec<u64>, Refusal> {
    let mut out = [0; 2 * MOST_QUBITS];
    let mut count = 0;
    // SAFETY: as in `minimal`; `row_count` is at most the length of `out`.
    let reply = unsafe {
        turnlist_rebuild(n, vectors.as_ptr(), vectors.len(), out.as_mut_ptr(), row_count(n), &mut count)
    };
    written(reply, &out, count)
}

/// Of two lists the shorter one whose product is the action, the first at equal length: the lent slice itself.
pub fn shorter<'a>(n: u64, rows: &[u64], first: &'a [u64], second: &'a [u64]) -> Result<&'a [u64], Refusal> {
    let mut chosen = 0;
    let (first_at, second_at) = (first.as_ptr(), second.as_ptr());
    // SAFETY: as in `minimal`.
    let reply = unsafe {
        turnlist_shorter(n, rows.as_ptr(), rows.len(), first_at, first.len(), second_at, second.len(), &mut chosen)
    };
    answered(reply)?;
    Ok(if chosen == 1 { first } else { second })
}

/// The sheet in force from now on: the lent one if it passes its questions, else the former one; and the refusal.
pub fn load_sheet<'a>(lent: &'a [u8], former: &'a [u8]) -> (&'a [u8], Result<(), Refusal>) {
    // SAFETY: as in `minimal`.
    let reply = answered(unsafe { turnlist_sheet(lent.as_ptr(), lent.len()) });
    (if reply.is_ok() { lent } else { former }, reply)
}

/// The 2n rows of the action of a sequence of gates of a sheet.
pub fn gates(n: u64, sheet: &[u8], gates: &[Gate]) -> Result<Vec<u64>, Refusal> {
    let bytes = gates.as_flattened();
    let mut out = [0; 2 * MOST_QUBITS];
    let mut count = 0;
    let (to, room) = (out.as_mut_ptr(), row_count(n));
    // SAFETY: as in `rebuild`.
    let reply = unsafe {
        turnlist_gates(n, sheet.as_ptr(), sheet.len(), bytes.as_ptr(), bytes.len(), to, room, &mut count)
    };
    written(reply, &out, count)
}

/// 2n; 0 where n is above 32, which the call refuses.
fn row_count(n: u64) -> usize {
    if n <= MOST_QUBITS as u64 { 2 * n as usize } else { 0 }
}

/// Whether a call answered, or the refusal.
fn answered(reply: u64) -> Result<(), Refusal> {
    match reply {
        0 => Ok(()),
        number => Err(Refusal::of(number)),
    }
}

/// What an answer wrote, or the refusal.
fn written(reply: u64, out: &[u64], count: u64) -> Result<Vec<u64>, Refusal> {
    answered(reply)?;
    Ok(out[..count as usize].to_vec())
}

// The functions themselves, as include/turnlist.h declares them and says what a caller owes.
extern "C" {
    pub fn turnlist_minimal(
        n: u64,
        rows: *const u64,
        row_count: usize,
        budget: u64,
        out: *mut u64,
        out_len: usize,
        count: *mut u64,
        looks: *mut u64,
    ) -> u64;
    pub fn turnlist_minimal_remembering(
        n: u64,
        rows: *const u64,
        row_count: usize,
        budget: u64,
        memory: *mut u64,
        memory_len: usize,
        out: *mut u64,
        out_len: usize,
        count: *mut u64,
        looks: *mut u64,
    ) -> u64;
    pub fn turnlist_greedy(n: u64, rows: *const u64, row_count: usize, out: *mut u64, out_len: usize, count: *mut u64) -> u64;
    pub fn turnlist_fixed_space(n: u64, rows: *const u64, row_count: usize, out: *mut u64, out_len: usize, count: *mut u64) -> u64;
    pub fn turnlist_self_inverse(n: u64, rows: *const u64, row_count: usize, out: *mut u64, out_len: usize, count: *mut u64) -> u64;
    pub fn turnlist_rebuild(n: u64, vectors: *const u64, vector_count: usize, out: *mut u64, out_len: usize, count: *mut u64) -> u64;
    pub fn turnlist_shorter(
        n: u64,
        rows: *const u64,
        row_count: usize,
        first: *const u64,
        first_len: usize,
        second: *const u64,
        second_len: usize,
        chosen: *mut u64,
    ) -> u64;
    pub fn turnlist_sheet(sheet: *const u8, sheet_len: usize) -> u64;
    pub fn turnlist_gates(
        n: u64,
        sheet: *const u8,
        sheet_len: usize,
        gates: *const u8,
        byte_count: usize,
        out: *mut u64,
        out_len: usize,
        count: *mut u64,
    ) -> u64;
}
