//! Comparisons of the calls that are lent a plan. `judge` says which number a call must send,
//! `exit` what every byte must be after it, `source` what the source answers, all from document 01
//! and VIEWER.md; `check` makes the call and compares. The other files have the cases.

pub mod bench;
pub mod check;
mod damage;
pub mod draw;
mod empty;
mod entries;
mod exit;
pub mod judge;
pub mod layout;
mod lengths;
pub mod lent;
pub mod limits;
pub mod model;
mod pairs;
pub mod points;
mod queries;
pub mod questions;
pub mod sound;
pub mod source;

pub use lent::Lent;

use crate::gate::Part;

/// What `gate` runs of it.
pub const GATE: [Part; 7] = [
    ("plan entries", || entries::run(10)),
    ("plan limits", limits::run),
    ("plan refusals", || pairs::run(2)),
    ("plan lengths", lengths::run),
    ("plan empty", empty::run),
    ("plan queries", || queries::run(60, 60)),
    ("plan damage", || damage::run(10_000)),
];

/// The same at length.
pub const LONG: [Part; 8] = [
    ("entries", || entries::run(300)),
    ("limits", limits::run),
    ("refusals", || pairs::run(3)),
    ("lengths", lengths::run),
    ("empty", empty::run),
    ("queries", || queries::run(2_000, 100)),
    ("words", damage::every_word),
    ("damage", || damage::run(300_000)),
];
