//! The same of self-inverse actions: the model gives numbers and lengths worked out by hand, lists that may not be chosen are seen
//! not to be, and the layers to try are what they are made to be.
use crate::echoes::{any, one_off, KINDS};
use crate::layers::{all_actions, hyperbolic, Random};
use crate::model::self_inverse;
use crate::self_inverse::{flaw, is_self_inverse, on_two, pairs_never};
use crate::words::{identity, product, symplectic};

const SWAP: [u64; 4] = [2, 1, 8, 4];
const HADAMARDS: [u64; 4] = [4, 8, 1, 2];
const CX: [u64; 4] = [3, 2, 4, 12];

/// How many turns are listed, or the refusal.
pub fn numbers() -> Result<(), String> {
    let replies = [
        (self_inverse(0, &[], 1), Ok(0)),
        (self_inverse(0, &[], 0), Err(5)),
        (self_inverse(2, &identity(2), 5), Ok(0)),
        (self_inverse(1, &[2, 1], 3), Ok(1)),
        (self_inverse(1, &[1, 3], 9), Ok(1)),
        (self_inverse(2, &HADAMARDS, 5), Ok(2)),
        (self_inverse(2, &SWAP, 5), Ok(3)),
        (self_inverse(2, &CX, 5), Ok(3)),
        (self_inverse(3, &product(3, &[0b001001, 0b010100, 0b010000, 0b000100]), 7), Ok(3)),
        (self_inverse(2, &SWAP, 4), Err(5)),
        (self_inverse(1, &[3, 1], 3), Err(17)),
        (self_inverse(1, &[3, 1], 2), Err(5)),
        (self_inverse(2, &product(2, &[0b0011, 0b1111]), 5), Ok(2)),
        (self_inverse(2, &product(2, &[5, 4, 6, 2]), 5), Err(17)),
        (self_inverse(2, &[2, 1, 4, 8], 0), Err(4)),
        (self_inverse(1, &[2, 2], 3), Err(4)),
        (self_inverse(1, &[2, 5], 0), Err(3)),
        (self_inverse(1, &[4, 4, 4], 0), Err(2)),
        (self_inverse(33, &[4], 0), Err(1)),
    ];
    match replies.iter().position(|(reply, wanted)| reply != wanted) {
        Some(k) => Err(format!("the model's self-inverse reply {k} is {:?}, not {:?}", replies[k].0, replies[k].1)),
        None => Ok(()),
    }
}

/// Lists that may be chosen, and what is wrong with those that may not.
pub fn lists() -> Result<(), String> {
    let [wide, other, apart, long] = [
        "a listed vector has a bit from 2n up",
        "the list's product is not the action",
        "two listed vectors pair to 1",
        "not as many turns as such an action takes",
    ]
    .map(Some);
    let same = identity(2);
    let cases: [(&[u64], &[u64], Option<&str>); 20] = [
        (&same, &[], None),
        (&HADAMARDS, &[5, 10], None),
        (&HADAMARDS, &[10, 5], None),
        (&SWAP, &[12, 15, 3], None),
        (&CX, &[4, 6, 2], None),
        (&CX, &[2, 4, 6], None),
        (&SWAP, &[12, 15, 19], wide),
        (&SWAP, &[12, 15, 3 | 1 << 63], wide),
        (&same, &[16], wide),
        (&SWAP, &[], other),
        (&SWAP, &[12, 15], other),
        (&SWAP, &[12, 15, 4], other),
        (&HADAMARDS, &[5, 11], other),
        (&same, &[1], other),
        (&HADAMARDS, &[1, 4, 1, 10], apart),
        (&HADAMARDS, &[1, 1, 5, 10], apart),
        (&SWAP, &[12, 15, 3, 0], long),
        (&HADAMARDS, &[5, 10, 15, 15], long),
        (&same, &[0], long),
        (&same, &[7, 7], long),
    ];
    match cases.iter().position(|(rows, list, wanted)| flaw(2, rows, list) != *wanted) {
        Some(k) => Err(format!("list {k} of a self-inverse action is misjudged")),
        None => Ok(()),
    }
}

/// Layers of each kind are self-inverse, and take r and r + 1 turns where both can be; those with one qubit off are not. That <u,uF> = 0
/// for all u is seen in three ways to be the same.
pub fn kinds() -> Result<(), String> {
    let mut random = Random(9);
    let mut lengths = [0; 3];
    for n in (0..=32).flat_map(|n| [n; 20]) {
        let lists: Vec<Vec<u64>> = KINDS.iter().map(|(kind, _)| kind(&mut random, n)).collect();
        for list in lists.into_iter().chain([any(&mut random, n)]) {
            let rows = product(n, &list);
            if !symplectic(n, &rows) || !is_self_inverse(n, &rows) {
                return Err(format!("a layer on {n} qubits is not self-inverse"));
            }
            lengths[if rows == identity(n) { 0 } else { 1 + usize::from(pairs_never(n, &rows)) }] += 1;
        }
        if n > 0 && is_self_inverse(n, &product(n, &one_off(&mut random, n, n / 2))) {
            return Err(format!("a layer on {n} qubits is self-inverse with one qubit off"));
        }
    }
    if lengths.iter().any(|layers| *layers < 100) {
        return Err(format!("of the self-inverse layers {lengths:?} take no turn, r turns and r + 1"));
    }
    let alike = |(rows, _): &(Vec<u64>, Vec<u64>)| {
        [on_two(2, rows), hyperbolic(2, rows)].iter().all(|by| *by == pairs_never(2, rows))
    };
    if !all_actions(2).iter().all(alike) {
        return Err("whether <u,uF> = 0 for all u is misjudged".to_string());
    }
    Ok(())
}
