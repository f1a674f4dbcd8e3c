//! Comparisons of what marches and shines: rays and shadows through a plan, light on a place, panels hit, form
//! factors and surfaces. `answer` and `formula` are the source's side; which number a call must send, `plan`
//! and `scalar` say, and `emitter` for its own call. The other files have the cases.

pub mod answer;
pub mod bench;
mod chosen;
mod differences;
mod emitter;
mod factors;
pub mod formula;
pub mod panels;
mod places;
pub mod room;
mod rooms;
mod surfaces;
#[cfg(test)]
mod tests;
mod turns;

use crate::gate::Part;

/// What `gate` runs of it.
pub const GATE: [Part; 7] = [
    ("light chosen", chosen::run),
    ("light turns", turns::run),
    ("light differences", differences::run),
    ("light factors", || factors::run(1_000_000)),
    ("light surfaces", || surfaces::run(300_000)),
    ("light emitters", || emitter::run(100_000)),
    ("light rooms", || rooms::run(60, 20)),
];

/// The same at length.
pub const LONG: [Part; 7] = [
    ("chosen", chosen::run),
    ("turns", turns::run),
    ("differences", differences::run),
    ("factors", || factors::run(50_000_000)),
    ("surfaces", || surfaces::run(10_000_000)),
    ("emitters", || emitter::run(5_000_000)),
    ("rooms", || rooms::run(1_500, 100)),
];
