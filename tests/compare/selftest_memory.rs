//! The same of memories: the model's shorten a search and are the reference's, and what is wrong with one is seen.
use crate::check::expected;
use crate::library::{pattern, Call, Question, Seen};
use crate::memory::ENTRY;
use crate::remembering::{flaw, misshapen};
use crate::vectors;

/// The call on the smallest action whose search a memory shortens; its memory holds the pattern.
fn asked(call: Call, out: usize, words: usize) -> Question {
    Question::of_words(call, 3, &[0x16, 0x1a, 0x2b, 7, 5, 4], out).with_memory(pattern(words))
}

/// The model's looks fall with the memory, and calls that the call without a memory does not allow are seen.
pub fn memories() -> Result<(), String> {
    let looks = |words| expected(&asked(Call::Remembering { budget: 58 }, 7, words)).looks;
    if [0, 64, 65, 6_500].map(looks) != [58, 58, 58, 51] {
        return Err("the model's looks do not fall as they should with a memory".to_string());
    }
    let changes: [(usize, u64, usize, fn(&mut Seen)); 12] = [
        (6_500, 58, 7, |seen| seen.number = 6),
        (6_500, 50, 7, |seen| seen.number = 7),
        (6_500, 58, 7, |seen| seen.looks = 59),
        (6_500, 58, 7, |seen| seen.count -= 1),
        (6_500, 58, 7, |seen| seen.out[0] ^= 1),
        (6_500, 50, 7, |seen| seen.number = 5),
        (64, 58, 7, |seen| seen.looks = 51),
        (64, 57, 7, |seen| seen.number = 0),
        (64, 58, 7, |seen| seen.memory[63] = 0),
        (65, 58, 6, |seen| seen.memory[0] = 2),
        (65, 58, 6, |seen| seen.number = 6),
        (65, 58, 6, |seen| seen.count = 0),
    ];
    for (k, (words, budget, out, change)) in changes.into_iter().enumerate() {
        let question = asked(Call::Remembering { budget }, out, words);
        let plain = expected(&asked(Call::Minimal { budget }, out, 0));
        let mut seen = expected(&question);
        let before = flaw(&question, &seen, &plain);
        change(&mut seen);
        if before.is_some() || flaw(&question, &seen, &plain).is_none() {
            return Err(format!("call {k} with a memory is misjudged"));
        }
    }
    Ok(())
}

/// Words that held the pattern, with these entries laid into them.
fn laid(entries: &[&[u64]]) -> Vec<u64> {
    let mut words = pattern(200);
    for (place, entry) in words.chunks_exact_mut(ENTRY).zip(entries) {
        place.fill(0);
        place[..entry.len()].copy_from_slice(entry);
    }
    words
}

/// Words that are not entries of different spaces in 3 columns are seen not to be.
pub fn entries() -> Result<(), String> {
    let right: [&[&[u64]]; 4] = [&[], &[&[1, 4]], &[&[2, 5, 2], &[3, 1, 2, 4], &[1, 7]], &[&[2, 1, 2], &[2, 1, 6]]];
    let wrong: [&[&[u64]]; 10] = [
        &[&[0]],
        &[&[2, 1]],
        &[&[1, 1, 2]],
        &[&[2, 2, 1]],
        &[&[2, 3, 2]],
        &[&[2, 3, 3]],
        &[&[1, 8]],
        &[&[4, 1, 2, 4, 8]],
        &[&[1 << 40, 1]],
        &[&[2, 1, 2], &[1, 1], &[2, 1, 2]],
    ];
    let touched = [64, 65, 129, 199].map(|place| {
        let mut words = laid(&[&[2, 1, 2]]);
        words[place] ^= 1;
        words
    });
    let seen = |words: Vec<u64>| misshapen(&words, 3).is_some();
    if right.map(laid).into_iter().any(seen) || !wrong.map(laid).into_iter().chain(touched).all(seen) {
        return Err("the entries of a memory are misjudged".to_string());
    }
    Ok(())
}

/// The model gives reference answers, and lines that say something else are seen to.
pub fn reference_lines() -> Result<(), String> {
    let right = [
        "2 200000 6500 | 2 1 8 4 | 0 3 0 c f 3 | 1 ; 2 1 2",
        "5 200000 64 | 81 102 10 181 24 68 40 200 48 80 | 0 7 689 61 3d dc fc 1bd 3c8 3fc | 0",
        "4 360 130 | 28 4 aa 1 a0 40 20 10 | 6 0 360 | 2 ; 4 25 26 28 30 ; 2 3d 16",
        "4 361 130 | 28 4 aa 1 a0 40 20 10 | 0 6 361 8e 2f 31 b6 46 e8 | 2 ; 4 25 26 28 30 ; 2 3d 16",
        "5 200000 1040 | 4 40 1 10 8 80 2 20 200 100 | 0 5 13 47 e2 ff 3e7 3ff | 2 ; 4 1 4 8 10 ; 2 4 10",
    ];
    let wrong = [
        "4 361 130 | 28 4 aa 1 a0 40 20 10 | 6 0 361 | 2 ; 4 25 26 28 30 ; 2 3d 16",
        "4 361 130 | 28 4 aa 1 a0 40 20 10 | 0 6 360 8e 2f 31 b6 46 e8 | 2 ; 4 25 26 28 30 ; 2 3d 16",
        "4 361 130 | 28 4 aa 1 a0 40 20 10 | 0 6 361 8e 2f 31 b6 e8 46 | 2 ; 4 25 26 28 30 ; 2 3d 16",
        "4 361 130 | 28 4 aa 1 a0 40 20 10 | 0 5 361 8e 2f 31 b6 46 | 2 ; 4 25 26 28 30 ; 2 3d 16",
        "4 361 130 | 28 4 aa 1 a0 40 20 10 | 0 6 361 8e 2f 31 b6 46 e8 | 2 ; 2 3d 16 ; 4 25 26 28 30",
        "4 361 130 | 28 4 aa 1 a0 40 20 10 | 0 6 361 8e 2f 31 b6 46 e8 | 2 ; 4 25 26 28 30 ; 2 2b 16",
        "4 361 130 | 28 4 aa 1 a0 40 20 10 | 0 6 361 8e 2f 31 b6 46 e8 | 2 ; 4 25 26 28 30 ; 3 3d 16",
        "4 361 130 | 28 4 aa 1 a0 40 20 10 | 0 6 361 8e 2f 31 b6 46 e8 | 2 ; 4 25 26 28 30",
        "4 361 130 | 28 4 aa 1 a0 40 20 10 | 0 6 361 8e 2f 31 b6 46 e8 | 1 ; 4 25 26 28 30",
        "2 200000 6500 | 2 1 8 4 | 0 3 0 c f 3 | 0",
        "2 200000 6500 | 2 1 8 4 | 0 3 0 c f 3",
        "",
    ];
    let agrees = |line: &str| vectors::read(line).is_some_and(|(question, wanted)| expected(&question) == wanted);
    if !right.into_iter().all(agrees) || wrong.into_iter().any(agrees) {
        return Err("the reference answers with a memory are misread, or the model gives others".to_string());
    }
    Ok(())
}
