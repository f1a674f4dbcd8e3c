//! Trees: what document 01 says of them, and the comparisons of the calls that build, take or use
//! one. `rules` says which number a tree gets, `search` what a search of it finds and counts;
//! neither knows our library. `judged` puts both to what is lent to a call; the other files have
//! the cases.

pub mod bench;
mod builds;
mod draw;
pub mod judged;
mod limits;
pub mod make;
mod offers;
mod rows;
pub mod rules;
mod search;
mod shape;
pub mod source;
pub mod stack;
mod strike;
pub mod table;
#[cfg(test)]
mod tests;

use crate::gate::Part;

/// What `gate` runs of it.
pub const GATE: [Part; 5] = [
    ("tree rows", rows::run),
    ("tree builds", || builds::run(300, 20)),
    ("tree offers", || offers::run(6_000)),
    ("tree limits", limits::run),
    ("stack", stack::run),
];

/// The same at length.
pub const LONG: [Part; 4] = [
    ("rows", rows::run),
    ("builds", || builds::run(10_000, 100)),
    ("offers", || offers::run(150_000)),
    ("limits", limits::run),
];
