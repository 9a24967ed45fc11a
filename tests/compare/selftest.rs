//! Before the comparison: damage of every kind is planted and must be reported, the families are what they say, and the model
//! gives the scope paper's examples, some fixed spaces and some choices.
use crate::check::Checker;
use crate::fixed::{self, reduced};
use crate::layers::{hyperbolic, Family, Layers, FAMILIES};
use crate::library::{pattern, Call, Lent, Question, Spoil, SIX_GATES};
use crate::model::{self, fixed_space, greedy, minimal, six_gates};
use crate::shorter;
use crate::source::{agrees, Listed};
use crate::words::{identity, symplectic, times};

type Damage = Box<dyn Fn(&mut Lent, &mut u64)>;

/// Damage of each kind; in place of input or output that a call does not have, a guard word is hit.
fn damages() -> Vec<(&'static str, Damage)> {
    vec![
        ("number", Box::new(|_, number| *number ^= 1)),
        ("number, 15 or 16 in its place", Box::new(|_, number| *number = if *number == 15 { 16 } else { 15 })),
        ("first output word", Box::new(|lent, _| lent.out.all[8] ^= 1)),
        ("last output word", Box::new(|lent, _| *lent.out.all.iter_mut().nth_back(8).unwrap() ^= 1 << 40)),
        ("first memory word", Box::new(|lent, _| lent.memory.all[8] ^= 1)),
        ("last memory word", Box::new(|lent, _| *lent.memory.all.iter_mut().nth_back(8).unwrap() ^= 1 << 40)),
        ("count", Box::new(|lent, _| lent.count.content()[0] += 1)),
        ("looks", Box::new(|lent, _| lent.looks.content()[0] -= 1)),
        ("choice", Box::new(|lent, _| lent.chosen.content()[0] ^= 3)),
        ("input word", Box::new(|lent, _| lent.words.all[8] ^= 2)),
        ("first sheet byte", Box::new(|lent, _| lent.sheet.all[64] ^= 1)),
        ("last sheet byte", Box::new(|lent, _| *lent.sheet.all.iter_mut().nth_back(64).unwrap() ^= 128)),
        ("input byte", Box::new(|lent, _| lent.bytes.all[64] ^= 2)),
        ("first list", Box::new(|lent, _| lent.lists[0].all[8] ^= 2)),
        ("second list", Box::new(|lent, _| *lent.lists[1].all.iter_mut().nth_back(8).unwrap() ^= 1)),
        ("word before the output", Box::new(|lent, _| lent.out.all[7] = 0)),
        ("word after the output", Box::new(|lent, _| *lent.out.all.last_mut().unwrap() ^= 1)),
        ("word before the memory", Box::new(|lent, _| lent.memory.all[7] ^= 1)),
        ("word after the memory", Box::new(|lent, _| *lent.memory.all.iter_mut().nth_back(7).unwrap() = 0)),
        ("word before the input", Box::new(|lent, _| lent.words.all[0] ^= 1)),
        ("byte before the sheet", Box::new(|lent, _| lent.sheet.all[63] ^= 1)),
        ("first byte before the sheet", Box::new(|lent, _| lent.sheet.all[0] = 0)),
        ("byte after the sheet", Box::new(|lent, _| *lent.sheet.all.iter_mut().nth_back(63).unwrap() = 0)),
        ("last byte after the sheet", Box::new(|lent, _| *lent.sheet.all.last_mut().unwrap() ^= 1)),
        ("byte before the gates", Box::new(|lent, _| lent.bytes.all[63] = 0)),
        ("byte after the gates", Box::new(|lent, _| *lent.bytes.all.last_mut().unwrap() ^= 1)),
        ("word after the count", Box::new(|lent, _| lent.count.all[9] = 0)),
        ("word before the looks", Box::new(|lent, _| lent.looks.all[7] = 0)),
        ("word before the first list", Box::new(|lent, _| lent.lists[0].all[7] = 0)),
        ("word after the first list", Box::new(|lent, _| *lent.lists[0].all.last_mut().unwrap() ^= 1)),
        ("word before the second list", Box::new(|lent, _| lent.lists[1].all[0] ^= 1)),
        ("word after the second list", Box::new(|lent, _| *lent.lists[1].all.iter_mut().nth_back(7).unwrap() = 0)),
        ("word before the choice", Box::new(|lent, _| lent.chosen.all[7] = 0)),
        ("word after the choice", Box::new(|lent, _| lent.chosen.all[9] = 0)),
    ]
}

/// Answers and refusals of all nine calls.
fn questions() -> Vec<Question> {
    let rows = [2, 1, 8, 4, 0x20, 0x10].map(|k: u64| k ^ 1);
    let swap = [2, 1, 8, 4];
    let hadamards = [4, 8, 1, 2];
    let minimal = |rows: &[u64], budget, out| Question::of_words(Call::Minimal { budget }, 2, rows, out);
    let remembering = |rows: &[u64], budget, out, words| {
        Question::of_words(Call::Remembering { budget }, 2, rows, out).with_memory(pattern(words))
    };
    vec![
        minimal(&hadamards, 2, 6),
        minimal(&hadamards, 1, 6),
        minimal(&swap, 0, 5),
        minimal(&rows, 9, 5),
        minimal(&swap, 9, 4),
        remembering(&hadamards, 1, 5, 64),
        remembering(&swap, 0, 5, 70),
        remembering(&swap, 0, 6, 200),
        remembering(&swap, 9, 4, 65),
        remembering(&rows, 9, 5, 130),
        Question::of_words(Call::Greedy, 2, &swap, 10),
        Question::of_words(Call::Greedy, 2, &hadamards, 9),
        Question::of_words(Call::FixedSpace, 2, &swap, 6),
        Question::of_words(Call::FixedSpace, 2, &hadamards, 3),
        Question::of_words(Call::SelfInverse, 2, &swap, 6),
        Question::of_words(Call::SelfInverse, 2, &hadamards, 5),
        Question::of_words(Call::SelfInverse, 2, &identity(2), 5),
        Question::of_words(Call::SelfInverse, 2, &swap, 4),
        Question::of_words(Call::SelfInverse, 1, &[3, 1], 3),
        Question::of_words(Call::SelfInverse, 2, &rows, 5),
        Question::of_words(Call::Rebuild, 2, &[3, 0, 15], 4),
        Question::of_words(Call::Rebuild, 2, &[3, 16], 4),
        Question::of_lists(2, &swap, &[12, 15, 3], &[3, 15, 0, 12]),
        Question::of_lists(2, &swap, &[12, 15, 3, 0], &[3, 15, 12]),
        Question::of_lists(2, &swap, &[12, 15], &[16]),
        Question::of_lists(2, &rows, &[12, 15, 3], &[3]),
        Question::of_sheet(&SIX_GATES),
        Question::of_sheet(&SIX_GATES[..36]),
        Question::of_sheet(&[1, 1, 1, 5, 0, 2]),
        Question::of_sheet(&[]),
        Question::of_gates(2, &[0, 1, 9, 5, 0, 1], 4),
        Question::of_gates(2, &[0, 1, 9, 5, 1, 1], 4),
        Question::of_gates(2, &[0, 0, 1], 4).with_sheet(&[1, 2, 3, 1, 0]),
        Question::of_gates(2, &[1, 0, 1], 4).with_sheet(&[1, 2, 3, 1, 0]),
        Question::of_gates(2, &[], 4).with_sheet(&[1, 2, 3, 1]),
        Question::of_gates(2, &[0, 0, 1], 4).with_sheet(&[1, 1, 3, 1, 0]),
        Question::of_gates(2, &[0, 0, 1], 4).with_sheet(&[]),
    ]
}

/// How many reports one spoiled call gives.
fn reports(question: &Question, spoil: Option<Spoil>) -> u64 {
    let mut check = Checker::new(None, true);
    check.call_spoiled("", question, spoil);
    check.differ
}

/// The number of planted damages that were seen, or what went wrong.
pub fn planted() -> Result<u64, String> {
    let mut seen = 0;
    for question in questions() {
        if reports(&question, None) != 0 {
            return Err(format!("{question:?} differs before any damage"));
        }
        for (what, damage) in damages() {
            if reports(&question, Some(&damage)) != 1 {
                return Err(format!("damage to the {what} was not seen: {question:?}"));
            }
            seen += 1;
        }
    }
    Ok(seen)
}

/// Lines of the source that say something else than the library are seen to; another basis of the same fixed space does not.
pub fn source_lines() -> Result<(), String> {
    let (minimal, greedy, self_inverse) = (vec![5, 10], vec![10, 5], Some(vec![10, 5]));
    let mut listed =
        Listed { n: 2, rows: vec![4, 8, 1, 2], minimal, looks: 2, greedy, fixed: vec![5, 10], self_inverse };
    let agree = |lines: [&str; 4]| agrees(&listed, &lines.map(String::from));
    let of_fixed = |line: &'static str| ["min: 5 a", "visits: 2", "greedy: a 5", line];
    let right = ["fixed: 5 a", "fixed: a 5", "fixed: 5 f", "fixed: f a"].map(of_fixed);
    let other_spaces =
        ["fixed: 5 2", "fixed: 5", "fixed: 5 5", "fixed: 5 a f", "fixed: 5 a 1", "fixed:", ""].map(of_fixed);
    let other_lists = [
        ["min: a 5", "visits: 2", "greedy: a 5", "fixed: 5 a"],
        ["min: 5 a 0", "visits: 2", "greedy: a 5", "fixed: 5 a"],
        ["min: 5 a", "visits: 3", "greedy: a 5", "fixed: 5 a"],
        ["min: 5 a", "visits: 2", "greedy: a 4", "fixed: 5 a"],
        [""; 4],
    ];
    if !right.into_iter().all(agree) || other_spaces.into_iter().chain(other_lists).any(agree) {
        return Err("the source's lines are misread".to_string());
    }
    let lines = ["min: 5 a", "visits: 2", "greedy: a 5", "fixed: 5 a"].map(String::from);
    let lists = [(None, true), (Some(vec![5, 10]), true), (Some(vec![5]), false), (Some(vec![10, 5, 0]), false)];
    for (list, right) in lists {
        listed.self_inverse = list;
        if agrees(&listed, &lines) != right {
            return Err("the length of a self-inverse action's list is misjudged".to_string());
        }
    }
    Ok(())
}

/// Every drawn action is symplectic, an involution squares to the identity, a hyperbolic one is.
pub fn families() -> Result<(), String> {
    let mut layers = Layers::new(1);
    for n in 1..=32 {
        for (family, name) in FAMILIES {
            let rows = layers.action(family, n);
            let square: Vec<u64> = rows.iter().map(|&row| times(row, &rows)).collect();
            let fits = match family {
                Family::Involution => square == identity(n),
                Family::Hyperbolic => hyperbolic(n, &rows),
                _ => true,
            };
            if !fits || !symplectic(n, &rows) {
                return Err(format!("{name}, n = {n}: not of the family"));
            }
        }
    }
    Ok(())
}

/// The examples of the scope paper that have numbers and vectors, by the model.
pub fn examples() -> Result<(), String> {
    let action = |n: u64, bytes: &[u8]| six_gates(n, bytes, 2 * n as usize).unwrap_or_default().0;
    let (h, hh) = (action(1, &[0, 0, 0]), action(2, &[0, 0, 0, 0, 1, 0]));
    let (cx, swap) = (action(2, &[3, 0, 1]), action(2, &[5, 0, 1]));
    let replies = [
        (minimal(0, &[], 0, 1), Ok((vec![], 0))),
        (minimal(2, &identity(2), 0, 5), Ok((vec![], 0))),
        (minimal(1, &h, 1, 3), Ok((vec![0b11], 1))),
        (minimal(1, &h, 0, 3), Err(6)),
        (minimal(2, &hh, 2, 5), Ok((vec![0b0101, 0b1010], 2))),
        (greedy(2, &hh, 10), Ok((vec![0b1010, 0b0101], 0))),
        (minimal(2, &hh, 1, 5), Err(6)),
        (minimal(2, &cx, 0, 5), Ok((vec![0b0100, 0b0110, 0b0010], 0))),
        (greedy(2, &cx, 10), Ok((vec![0b0100, 0b0110, 0b0010], 0))),
        (minimal(2, &swap, 0, 5), Ok((vec![0b1100, 0b1111, 0b0011], 0))),
        (greedy(2, &swap, 10), Ok((vec![0b1100, 0b1111, 0b0011], 0))),
        (minimal(1, &[2, 2], 9, 3), Err(4)),
        (minimal(33, &[], 9, 0), Err(1)),
        (minimal(2, &swap, 0, 4), Err(5)),
        (six_gates(2, &[3, 1, 1], 4), Err(11)),
    ];
    match replies.iter().position(|(reply, wanted)| reply != wanted) {
        Some(k) => Err(format!("the model's reply to example {k} is {:?}, not {:?}", replies[k].0, replies[k].1)),
        None => Ok(()),
    }
}

/// The model gives these fixed spaces, and lists that are not the reduced basis of one are seen not to be.
pub fn fixed_spaces() -> Result<(), String> {
    let (hh, swap, cx) = ([4, 8, 1, 2], [2, 1, 8, 4], [3, 2, 4, 12]);
    let replies = [
        (fixed_space(0, &[], 0), Ok((vec![], 0))),
        (fixed_space(1, &[2, 3], 2), Ok((vec![], 0))),
        (fixed_space(2, &identity(2), 4), Ok((vec![1, 2, 4, 8], 0))),
        (fixed_space(2, &hh, 4), Ok((vec![0b0101, 0b1010], 0))),
        (fixed_space(2, &swap, 4), Ok((vec![0b0011, 0b1100], 0))),
        (fixed_space(2, &cx, 9), Ok((vec![0b0010, 0b0100], 0))),
        (fixed_space(2, &cx, 3), Err(5)),
        (fixed_space(1, &[2, 2], 0), Err(4)),
    ];
    if let Some((reply, wanted)) = replies.iter().find(|(reply, wanted)| reply != wanted) {
        return Err(format!("the model's fixed space is {reply:?}, not {wanted:?}"));
    }
    let wrong: [&[u64]; 8] = [&[], &[3], &[3, 8], &[3, 15], &[12, 3], &[3, 3], &[0, 3], &[3, 16]];
    let flawed = |list: &[u64]| fixed::flaw(2, &swap, list).is_some();
    if !wrong.into_iter().all(flawed) || flawed(&[3, 12]) || reduced(&[15, 12, 3]) != [3, 12] {
        return Err("the reduced basis of a fixed space is mistaken".to_string());
    }
    Ok(())
}

/// The model makes these choices, and replies that are not right are seen not to be.
pub fn choices() -> Result<(), String> {
    let (identity, swap, hh) = (identity(2), [2, 1, 8, 4], [4, 8, 1, 2]);
    let replies = [
        (model::shorter(0, &[], &[], &[]), Ok(1)),
        (model::shorter(0, &[], &[0], &[]), Ok(2)),
        (model::shorter(0, &[], &[1], &[1 << 63]), Err(14)),
        (model::shorter(2, &identity, &[7, 7], &[0]), Ok(2)),
        (model::shorter(2, &identity, &[7], &[16]), Err(14)),
        (model::shorter(2, &hh, &[5, 10], &[10, 5]), Ok(1)),
        (model::shorter(2, &hh, &[5, 10, 0], &[10, 5]), Ok(2)),
        (model::shorter(2, &hh, &[5, 26], &[0, 10, 5]), Ok(2)),
        (model::shorter(2, &swap, &[12, 15, 3], &[]), Ok(1)),
        (model::shorter(2, &swap, &[12, 15], &[5, 10]), Err(14)),
        (model::shorter(2, &swap, &[12, 15, 3, 16], &[12, 15, 3 | 1 << 63]), Err(14)),
        (model::shorter(1, &[2, 2], &[], &[]), Err(4)),
        (model::shorter(1, &[2, 5], &[], &[]), Err(3)),
        (model::shorter(1, &[4, 4, 4], &[], &[]), Err(2)),
        (model::shorter(33, &[4], &[], &[]), Err(1)),
    ];
    if let Some(k) = replies.iter().position(|(reply, wanted)| reply != wanted) {
        return Err(format!("the model's choice {k} is {:?}, not {:?}", replies[k].0, replies[k].1));
    }
    let wrong = [
        (&swap, &[12, 15, 3][..], &[3, 15, 12][..], 2),
        (&swap, &[12, 15, 3, 0], &[3, 15, 12], 1),
        (&swap, &[12, 15], &[3, 15, 12], 1),
        (&swap, &[12, 15, 3], &[16], 2),
        (&swap, &[12, 15, 3], &[16], 14),
        (&swap, &[16], &[12, 15, 3], 14),
        (&swap, &[12, 15, 3], &[], 0),
        (&hh, &[5, 26], &[5], 1),
    ];
    let flawed = |(rows, first, second, reply): (&[u64; 4], &[u64], &[u64], u64)| {
        shorter::flaw(&Question::of_lists(2, rows, first, second), reply).is_some()
    };
    let right = [(&hh, &[5, 10][..], &[5][..], 1), (&hh, &[5, 10, 0], &[10, 5], 2), (&hh, &[], &[26, 5], 14)];
    if !wrong.into_iter().all(flawed) || right.into_iter().any(flawed) {
        return Err("a choice is misjudged".to_string());
    }
    Ok(())
}
