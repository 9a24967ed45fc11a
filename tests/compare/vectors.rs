//! The reference answers with a memory (vectors/memory.txt), where they are at hand. A line is
//! `n budget memwords | rows | refusal count looks vectors.. | entries ; d b0 b1.. ; ..`, rows, vectors and b hexadecimal.
use crate::check::Checker;
use crate::library::{pattern, Call, Question, Seen};
use crate::memory::ENTRY;

fn numbers<T>(text: &str, read: impl Fn(&str) -> Option<T>) -> Option<Vec<T>> {
    text.split_whitespace().map(read).collect()
}

fn decimal(word: &str) -> Option<u64> {
    word.parse().ok()
}

fn hexadecimal(word: &str) -> Option<u64> {
    u64::from_str_radix(word, 16).ok()
}

/// Lays the entries of a line into the words; none where they are not as many as the line says, or are too many.
fn lay(text: &str, words: &mut [u64]) -> Option<()> {
    let mut parts = text.split(';');
    let count = decimal(parts.next()?.trim())?;
    let mut places = words.chunks_exact_mut(ENTRY);
    for part in parts.by_ref() {
        let (d, basis) = part.trim().split_once(' ')?;
        let basis = numbers(basis, hexadecimal)?;
        let place = places.next()?;
        place.fill(0);
        place[0] = decimal(d).filter(|&d| d == basis.len() as u64)?;
        place[1..].get_mut(..basis.len())?.copy_from_slice(&basis);
    }
    (count == text.matches(';').count() as u64).then_some(())
}

/// The call of a line, and what a caller should see.
pub fn read(line: &str) -> Option<(Question, Seen)> {
    let parts: [&str; 4] = line.split('|').collect::<Vec<_>>().try_into().ok()?;
    let [n, budget, words] = numbers(parts[0], decimal)?.try_into().ok()?;
    let rows = numbers(parts[1], hexadecimal)?;
    let out = 2 * n as usize + 1;
    let memory = pattern(words as usize);
    let question = Question::of_words(Call::Remembering { budget }, n, &rows, out).with_memory(memory);
    let mut reply = parts[2].split_whitespace();
    let [number, count, looks] = [reply.next()?, reply.next()?, reply.next()?].map(decimal);
    let list: Vec<u64> = reply.map(hexadecimal).collect::<Option<_>>()?;
    let mut seen = Seen::untouched(number?, &question);
    lay(parts[3], &mut seen.memory)?;
    if number == Some(0) {
        seen.out.get_mut(..list.len())?.copy_from_slice(&list);
        (seen.count, seen.looks) = (count.filter(|&count| count == list.len() as u64)?, looks?);
    }
    Some((question, seen))
}

/// Makes the call of each line; how many lines there are, none where a line cannot be read.
pub fn compare(check: &mut Checker, text: &str) -> Option<usize> {
    for line in text.lines() {
        let (question, wanted) = read(line)?;
        let seen = check.call("reference answers", &question);
        check.require(seen == wanted, &question, "not the reference answer");
    }
    Some(text.lines().count())
}
