//! Comparisons of the calls that are lent `args` and `out` alone: root, arc cosine, shapes, form factors
//! and surfaces. `judge` says which number a call must send, `answer` what an accepted one answers, `check`
//! makes the call and compares. The other files have the cases; random ones of form factors and surfaces are
//! with the light.

mod acos;
mod acos_error;
mod answer;
pub mod bench;
pub mod cases;
pub mod check;
pub mod draw;
mod judge;
pub mod patterns;
mod refusals;
mod root;
mod shapes;
pub mod store;

use crate::gate::Part;
use crate::words;

/// What `gate` runs of it.
pub const GATE: [Part; 5] = [
    ("root", root::sample),
    ("arc cosine", acos::sample),
    ("chosen cases", cases::run),
    ("shapes", shapes::run),
    ("refusals", refusals::run),
];

/// The most words that one of these calls reads.
pub const MOST_ARGS: usize = 12;

/// The first words of `args`, as many as a call can read; 0 where there are none.
fn words_of(args: &[u8]) -> [u32; MOST_ARGS] {
    let mut words = [0; MOST_ARGS];
    for (i, place) in words.iter_mut().enumerate().take(args.len() / 4) {
        *place = words::word(args, i);
    }
    words
}
