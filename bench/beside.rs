//! Microseconds of whole calls of two builds of the library, both as shared objects in one process, in turn on the same layers:
//! `beside NEW OLD`. The answers of both are compared before they are timed.
use std::ffi::{c_char, c_int, c_void, CString};
use std::hint::black_box;

mod clock;
mod families;
mod layers;
#[allow(dead_code)] // layers are chosen by the minimal call, and the lists to rebuild are greedy ones
mod ours;

use clock::Clock;

const BUDGET: u64 = 1_000_000;
const LAYERS: usize = 8;
const ROUNDS: usize = 60;

extern "C" {
    fn dlopen(path: *const c_char, flags: c_int) -> *mut c_void;
    fn dlsym(library: *mut c_void, name: *const c_char) -> *mut c_void;
}

type Minimal = extern "C" fn(u64, *const u64, usize, u64, *mut u64, usize, &mut u64, &mut u64) -> u64;
type Listing = extern "C" fn(u64, *const u64, usize, *mut u64, usize, &mut u64) -> u64;

/// What a call answers: the refusal, the count, the looks and the lent words.
type Answer = (u64, u64, u64, [u64; ours::ROOM]);

struct Library {
    minimal: Minimal,
    greedy: Listing,
    rebuild: Listing,
}

impl Library {
    fn open(path: &str) -> Self {
        let path = CString::new(path).unwrap();
        // RTLD_NOW: each library's names are bound to itself, since neither is opened for the other.
        let library = unsafe { dlopen(path.as_ptr(), 2) };
        assert!(!library.is_null(), "{path:?} cannot be opened");
        let symbol = |name: &str| {
            let name = CString::new(name).unwrap();
            let found = unsafe { dlsym(library, name.as_ptr()) };
            assert!(!found.is_null(), "no {name:?} in {path:?}");
            found
        };
        unsafe {
            Library {
                minimal: std::mem::transmute::<*mut c_void, Minimal>(symbol("turnlist_minimal")),
                greedy: std::mem::transmute::<*mut c_void, Listing>(symbol("turnlist_greedy")),
                rebuild: std::mem::transmute::<*mut c_void, Listing>(symbol("turnlist_rebuild")),
            }
        }
    }

    fn minimal(&self, n: usize, rows: &[u64]) -> Answer {
        let (mut count, mut looks, mut out) = (0, 0, [0; ours::ROOM]);
        let number = (self.minimal)(n as u64, rows.as_ptr(), rows.len(), BUDGET, out.as_mut_ptr(), out.len(), &mut count, &mut looks);
        (number, count, looks, out)
    }

    fn greedy(&self, n: usize, rows: &[u64]) -> Answer {
        let (mut count, mut out) = (0, [0; ours::ROOM]);
        let number = (self.greedy)(n as u64, rows.as_ptr(), rows.len(), out.as_mut_ptr(), out.len(), &mut count);
        (number, count, 0, out)
    }

    fn rebuild(&self, n: usize, list: &[u64]) -> Answer {
        let (mut count, mut out) = (0, [0; ours::ROOM]);
        let number = (self.rebuild)(n as u64, list.as_ptr(), list.len(), out.as_mut_ptr(), 2 * n, &mut count);
        (number, count, 0, out)
    }
}

/// Runs some frames further down the stack: copies are faster or slower by where they lie, so each round takes another place.
fn deeper(frames: usize, run: &mut dyn FnMut()) {
    let frame = black_box([0u8; 48]);
    if frames == 0 {
        run();
    } else {
        deeper(frames - 1, run);
    }
    black_box(frame);
}

/// Layers of a family whose search stays within the budget.
fn chosen(n: usize, rows: fn(usize, u64) -> Vec<u64>) -> Vec<Vec<u64>> {
    let within = |rows: &Vec<u64>| ours::minimal(n, rows, BUDGET, &mut [0; ours::ROOM]).0 != 6;
    (1..).map(|seed| rows(n, seed)).filter(within).take(LAYERS).collect()
}

fn as_it_is(_: usize, rows: Vec<u64>) -> Vec<u64> {
    rows
}

fn greedy_list(n: usize, rows: Vec<u64>) -> Vec<u64> {
    let mut out = [0; ours::ROOM];
    let (number, count) = ours::greedy(n, &rows, &mut out);
    assert_eq!(number, 0, "the greedy call is refused");
    out[..count].to_vec()
}

/// A line for each family: the ratio of the mean times, that of the worst layer, and both times. A call takes what is made of
/// a layer's rows.
fn table(title: &str, libraries: &[Library; 2], made: fn(usize, Vec<u64>) -> Vec<u64>, call: fn(&Library, usize, &[u64]) -> Answer) {
    println!("{title}");
    println!("{:>9}{:>8}  {:<11}{:>9}{:>9}", "new / old", "worst", "layers", "new", "old");
    for (name, widths, rows) in families::FAMILIES {
        for &n in widths {
            let of: Vec<Vec<u64>> = chosen(n, rows).into_iter().map(|rows| made(n, rows)).collect();
            let mut clocks: Vec<[Clock; 2]> = of.iter().map(|_| [Clock::new(), Clock::new()]).collect();
            for words in &of {
                assert_eq!(call(&libraries[0], n, words), call(&libraries[1], n, words), "the answers differ");
            }
            for round in 0..ROUNDS {
                for (words, clocks) in of.iter().zip(&mut clocks) {
                    for side in [round % 2, 1 - round % 2] {
                        deeper(round, &mut || clocks[side].sample(|| call(&libraries[side], n, words)));
                    }
                }
            }
            let mean = |side: usize| clocks.iter().map(|c| c[side].best).sum::<f64>() / LAYERS as f64;
            let worst = clocks.iter().map(|c| c[0].best / c[1].best).fold(0.0, f64::max);
            let (new, old) = (mean(0), mean(1));
            println!("{:>9.3}{worst:>8.3}  {:<11}{new:>9.2}{old:>9.2}", new / old, format!("{name} {n}"));
        }
    }
}

fn main() {
    let paths: Vec<String> = std::env::args().skip(1).collect();
    let libraries = [Library::open(&paths[0]), Library::open(&paths[1])];
    table("the minimal call, microseconds", &libraries, as_it_is, Library::minimal);
    println!();
    table("the greedy call, microseconds", &libraries, as_it_is, Library::greedy);
    println!();
    table("the rebuild of the greedy list, microseconds", &libraries, greedy_list, Library::rebuild);
}
