//! The nine functions of the library behind one safe call. Every lent buffer stands between guard words of a known pattern.
use std::ops::Range;

#[allow(dead_code)]
#[path = "../../examples/turnlist.rs"]
mod turnlist;
pub use turnlist::SIX_GATES;
use turnlist::{
    turnlist_fixed_space, turnlist_gates, turnlist_greedy, turnlist_minimal, turnlist_minimal_remembering,
    turnlist_rebuild, turnlist_self_inverse, turnlist_sheet, turnlist_shorter,
};

#[derive(Clone, Copy, Debug, PartialEq)]
pub enum Call {
    Minimal { budget: u64 },
    Remembering { budget: u64 },
    Greedy,
    FixedSpace,
    SelfInverse,
    Rebuild,
    Shorter,
    Sheet,
    Gates,
}

/// One call with its input: words are rows or vectors, sheet is a gate sheet, bytes are gates, lists are the two to choose from,
/// out is the length of the output lent, memory is what is lent for dead ends.
#[derive(Clone, Debug)]
pub struct Question {
    pub call: Call,
    pub n: u64,
    pub words: Vec<u64>,
    pub sheet: Vec<u8>,
    pub bytes: Vec<u8>,
    pub lists: [Vec<u64>; 2],
    pub out: usize,
    pub memory: Vec<u64>,
}

impl Question {
    /// A call that takes a memory is lent a short one.
    pub fn of_words(call: Call, n: u64, words: &[u64], out: usize) -> Question {
        let memory = pattern(if matches!(call, Call::Remembering { .. }) { SHORT } else { 0 });
        let (words, lists) = (words.to_vec(), [Vec::new(), Vec::new()]);
        Question { call, n, words, sheet: Vec::new(), bytes: Vec::new(), lists, out, memory }
    }

    pub fn with_memory(self, memory: Vec<u64>) -> Question {
        Question { memory, ..self }
    }

    pub fn of_lists(n: u64, rows: &[u64], first: &[u64], second: &[u64]) -> Question {
        Question { lists: [first.to_vec(), second.to_vec()], ..Question::of_words(Call::Shorter, n, rows, 0) }
    }

    /// Whether a sheet can be put in force; it has no width.
    pub fn of_sheet(sheet: &[u8]) -> Question {
        Question::of_words(Call::Sheet, 0, &[], 0).with_sheet(sheet)
    }

    /// A sequence of our six gates.
    pub fn of_gates(n: u64, bytes: &[u8], out: usize) -> Question {
        Question { bytes: bytes.to_vec(), ..Question::of_words(Call::Gates, n, &[], out) }.with_sheet(&SIX_GATES)
    }

    pub fn with_sheet(self, sheet: &[u8]) -> Question {
        Question { sheet: sheet.to_vec(), ..self }
    }
}

/// What a caller sees after a call: the number, the lent words, and whether all else is as it was.
#[derive(Clone, Debug, PartialEq)]
pub struct Seen {
    pub number: u64,
    pub out: Vec<u64>,
    pub memory: Vec<u64>,
    pub count: u64,
    pub looks: u64,
    pub chosen: u64,
    pub guards: bool,
    pub input: bool,
}

impl Seen {
    /// The lent words before any call.
    pub fn untouched(number: u64, question: &Question) -> Seen {
        let (out, memory) = (pattern(question.out), question.memory.clone());
        Seen { number, out, memory, count: COUNT, looks: LOOKS, chosen: CHOSEN, guards: true, input: true }
    }

    /// The words listed; none on a refusal.
    pub fn list(&self) -> &[u64] {
        match self.number {
            0 => &self.out[..self.out.len().min(self.count as usize)],
            _ => &[],
        }
    }
}

const GUARDS: usize = 8;
const COUNT: u64 = 0xC0C0_5EED_0000_C0C0;
const LOOKS: u64 = 0x1001_5EED_0000_1001;
const CHOSEN: u64 = 0xC405_5EED_0000_C405;
/// Words of a short memory: three entries and five words.
const SHORT: usize = 200;

/// Words that no call writes by chance, each of them different.
pub fn pattern(length: usize) -> Vec<u64> {
    (1..=length as u64).map(|i| i.wrapping_mul(0xD1B5_4A32_D192_ED03) | 1 << 63).collect()
}

/// A buffer between guards.
pub struct Fenced<T> {
    pub all: Vec<T>,
    guard: Vec<T>,
}

impl<T: Copy + PartialEq> Fenced<T> {
    fn new(content: &[T], guard: Vec<T>) -> Fenced<T> {
        Fenced { all: [&guard, content, &guard].concat(), guard }
    }

    pub fn content(&mut self) -> &mut [T] {
        let end = self.all.len() - self.guard.len();
        &mut self.all[self.guard.len()..end]
    }

    fn pointer(&mut self) -> *mut T {
        // from the whole buffer, so that a stray write lands in a guard
        unsafe { self.all.as_mut_ptr().add(self.guard.len()) }
    }

    /// The content and its length; an empty one is at null.
    fn part(&mut self) -> (*mut T, usize) {
        match self.content().len() {
            0 => (std::ptr::null_mut(), 0),
            length => (self.pointer(), length),
        }
    }

    fn guarded(&self) -> bool {
        self.all.starts_with(&self.guard) && self.all.ends_with(&self.guard)
    }
}

/// All that is lent to one call.
pub struct Lent {
    pub words: Fenced<u64>,
    pub sheet: Fenced<u8>,
    pub bytes: Fenced<u8>,
    pub lists: [Fenced<u64>; 2],
    pub out: Fenced<u64>,
    pub memory: Fenced<u64>,
    pub count: Fenced<u64>,
    pub looks: Fenced<u64>,
    pub chosen: Fenced<u64>,
}

impl Lent {
    fn new(question: &Question) -> Lent {
        let words = |content: &[u64]| Fenced::new(content, pattern(GUARDS));
        // all above 127: what is read past the end is neither a count of a sheet nor a turn
        let bytes = |content: &[u8]| Fenced::new(content, (1..=8 * GUARDS as u8).map(|i| i ^ 0xA5).collect());
        Lent {
            words: words(&question.words),
            sheet: bytes(&question.sheet),
            bytes: bytes(&question.bytes),
            lists: question.lists.each_ref().map(|list| words(list)),
            out: words(&pattern(question.out)),
            memory: words(&question.memory),
            count: words(&[COUNT]),
            looks: words(&[LOOKS]),
            chosen: words(&[CHOSEN]),
        }
    }

    fn pass(&mut self, question: &Question) -> u64 {
        let n = question.n;
        let (words, word_count) = (self.words.pointer(), question.words.len());
        let [first, second] = self.lists.each_mut().map(Fenced::pointer);
        let [first_len, second_len] = question.lists.each_ref().map(Vec::len);
        let (sheet, sheet_len) = self.sheet.part();
        let (out, count, looks) = (self.out.pointer(), self.count.pointer(), self.looks.pointer());
        // SAFETY: each pointer is to a buffer of the length passed with it, and no two overlap.
        unsafe {
            match question.call {
                Call::Minimal { budget } => {
                    turnlist_minimal(n, words, word_count, budget, out, question.out, count, looks)
                }
                Call::Remembering { budget } => {
                    let (memory, length) = self.memory.part();
                    turnlist_minimal_remembering(
                        n,
                        words,
                        word_count,
                        budget,
                        memory,
                        length,
                        out,
                        question.out,
                        count,
                        looks,
                    )
                }
                Call::Greedy => turnlist_greedy(n, words, word_count, out, question.out, count),
                Call::FixedSpace => turnlist_fixed_space(n, words, word_count, out, question.out, count),
                Call::SelfInverse => turnlist_self_inverse(n, words, word_count, out, question.out, count),
                Call::Rebuild => turnlist_rebuild(n, words, word_count, out, question.out, count),
                Call::Shorter => {
                    let chosen = self.chosen.pointer();
                    turnlist_shorter(n, words, word_count, first, first_len, second, second_len, chosen)
                }
                Call::Sheet => turnlist_sheet(sheet, sheet_len),
                Call::Gates => {
                    let (gates, byte_count) = self.bytes.part();
                    turnlist_gates(n, sheet, sheet_len, gates, byte_count, out, question.out, count)
                }
            }
        }
    }

    fn guarded(&self) -> bool {
        let [first, second] = &self.lists;
        let words = [&self.words, first, second, &self.out, &self.memory, &self.count, &self.looks, &self.chosen];
        words.iter().all(|buffer| buffer.guarded()) && self.sheet.guarded() && self.bytes.guarded()
    }

    /// Whether all input is as it was.
    fn kept(&mut self, question: &Question) -> bool {
        let lists = self.lists.each_mut().map(Fenced::content);
        let bytes = self.sheet.content() == question.sheet && self.bytes.content() == question.bytes;
        lists == question.lists && self.words.content() == question.words && bytes
    }
}

/// Damage to what a call left, for the comparison's own test.
pub type Spoil<'a> = &'a dyn Fn(&mut Lent, &mut u64);

/// Makes the call; the damage, if any, is done before anything is looked at.
pub fn answer(question: &Question, spoil: Option<Spoil>) -> Seen {
    let mut lent = Lent::new(question);
    let mut number = lent.pass(question);
    if let Some(spoil) = spoil {
        spoil(&mut lent, &mut number);
    }
    Seen {
        number,
        guards: lent.guarded(),
        input: lent.kept(question),
        out: lent.out.content().to_vec(),
        memory: lent.memory.content().to_vec(),
        count: lent.count.content()[0],
        looks: lent.looks.content()[0],
        chosen: lent.chosen.content()[0],
    }
}

/// A part and its length; an empty one is at null.
fn lend<T>(part: &[T]) -> (*const T, usize) {
    (if part.is_empty() { std::ptr::null() } else { part.as_ptr() }, part.len())
}

/// The number and the choice where the rows and the lists are parts of one buffer, those that are empty at null.
pub fn choice_of_parts(n: u64, words: &[u64], parts: [Range<usize>; 3]) -> (u64, u64) {
    let [(rows, row_count), (first, first_len), (second, second_len)] = parts.map(|part| lend(&words[part]));
    let mut chosen = CHOSEN;
    // SAFETY: each pointer is to a part of the length passed with it, and what is written overlaps none.
    let number = unsafe { turnlist_shorter(n, rows, row_count, first, first_len, second, second_len, &mut chosen) };
    (number, chosen)
}

/// The number and the output words of a gate call where the sheet and the gates are parts of one buffer.
pub fn rows_of_parts(n: u64, bytes: &[u8], parts: [Range<usize>; 2], out_len: usize) -> (u64, Vec<u64>) {
    let [(sheet, sheet_len), (gates, byte_count)] = parts.map(|part| lend(&bytes[part]));
    let (mut out, mut count) = (pattern(out_len), COUNT);
    let to = out.as_mut_ptr();
    // SAFETY: as in `choice_of_parts`.
    let number = unsafe { turnlist_gates(n, sheet, sheet_len, gates, byte_count, to, out_len, &mut count) };
    (number, out)
}
