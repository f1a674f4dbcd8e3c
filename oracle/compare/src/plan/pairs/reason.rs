//! A reason to refuse: the number that it gets, what it changes, and what it hides.

use crate::plan::lent::{Lent, Which};

/// What a reason speaks of.
#[derive(Clone, Copy, PartialEq)]
pub enum Of {
    /// Lengths of trees' tables and `out`, the word `tree`, a full list: hidden by nothing. And the
    /// words of a tree, since what would hide them gets a lower number.
    Lent,
    PlanLength,
    Counts,
    /// Numbers of cutters and places, in the plan.
    Places,
    Pieces,
    Cutters,
    ArgsLength,
    /// A piece that is to enter, whose cutters are too many or not all there.
    ArgsEnd,
    Args,
    ArgsCutters,
}

impl Of {
    /// VIEWER.md: what is not judged beside such a reason.
    pub fn hides(self, other: Of) -> bool {
        match self {
            Of::PlanLength => {
                matches!(other, Of::Counts | Of::Places | Of::Pieces | Of::Cutters)
            }
            Of::Counts => matches!(other, Of::Places | Of::Pieces | Of::Cutters),
            Of::Places => other == Of::Cutters,
            Of::ArgsLength => matches!(other, Of::ArgsEnd | Of::Args | Of::ArgsCutters),
            Of::ArgsEnd => other == Of::ArgsCutters,
            _ => false,
        }
    }
}

#[derive(Clone, Copy)]
pub enum Change {
    Word(Which, usize, u32),
    Length(Which, usize),
    Tree(u32),
}

impl Change {
    pub fn make(self, lent: &mut Lent) {
        match self {
            Change::Word(which, i, word) => lent.table(which).put(i, &[word]),
            Change::Length(which, len) => lent.table(which).resize(len),
            Change::Tree(tree) => lent.tree = tree,
        }
    }

    fn meets(self, other: Change) -> bool {
        match (self, other) {
            (Change::Word(a, i, _), Change::Word(b, j, _)) => a == b && i == j,
            (Change::Length(a, _), Change::Length(b, _)) => a == b,
            (Change::Tree(_), Change::Tree(_)) => true,
            _ => false,
        }
    }
}

pub struct Reason {
    pub number: u32,
    pub of: Of,
    pub changes: Vec<Change>,
}

impl Reason {
    /// Both change the same thing, so they can't be had together.
    pub fn meets(&self, other: &Reason) -> bool {
        let met = |a: &Change| other.changes.iter().any(|b| a.meets(*b));
        self.changes.iter().any(met)
    }
}
