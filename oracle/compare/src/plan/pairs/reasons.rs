//! All the reasons that a call can have.

use super::base::{Base, UPRIGHT};
use super::reason::{Change, Of, Reason};
use crate::call::{Call, OUT_BYTES};
use crate::chosen::NAN;
use crate::judge::{
    AT_CENTRE, BAD_TREE, BAD_WORD, CAPSULE, NO_EXTENT, NO_MATERIAL, NO_ROOM, NO_TREE, PLANE, WRONG_KIND,
};
use crate::plan::layout::*;
use crate::plan::lent::Which::{Args, Nodes, OfferedNodes, OfferedOrder, Order, Out, Plan};
use crate::plan::sound;
use Change::{Length, Tree, Word};

/// The reasons that are gathered.
struct Reasons(Vec<Reason>);

impl Reasons {
    fn add(&mut self, number: u32, of: Of, changes: impl Into<Vec<Change>>) {
        let changes = changes.into();
        self.0.push(Reason { number, of, changes });
    }
}

pub fn reasons(call: Call, tree: u32, base: &Base) -> Vec<Reason> {
    let mut reasons = Reasons(Vec::new());
    lent(call, &mut reasons);
    trees(call, tree, &mut reasons);
    counts(call, base, &mut reasons);
    for list in call.tested_pieces() {
        pieces(list, base, &mut reasons);
    }
    if call.tests_lights() {
        lights(&mut reasons);
    }
    args(call, &mut reasons);
    reasons.0
}

fn lent(call: Call, reasons: &mut Reasons) {
    reasons.add(NO_ROOM, Of::Lent, [Length(Out, OUT_BYTES - 1)]);
    reasons.add(NO_ROOM, Of::PlanLength, [Length(Plan, PLAN_BYTES - 1)]);
    if call.args_words() > 0 {
        let short = 4 * call.args_words() - 1;
        reasons.add(NO_ROOM, Of::ArgsLength, [Length(Args, short)]);
    }
    if call.asks() {
        reasons.add(BAD_WORD, Of::Lent, [Tree(2)]);
    }
}

/// Tables of trees that are short, and trees that break a rule.
fn trees(call: Call, tree: u32, reasons: &mut Reasons) {
    let written = matches!(call, Call::AddObject | Call::Build | Call::Offer);
    if written || tree == 1 {
        reasons.add(NO_ROOM, Of::Lent, [Length(Nodes, NODES_BYTES - 1)]);
        reasons.add(NO_ROOM, Of::Lent, [Length(Order, ORDER_BYTES - 1)]);
    }
    if tree == 1 {
        reasons.add(NO_TREE, Of::Lent, [Word(Nodes, 0, NAN)]);
        reasons.add(NO_TREE, Of::Lent, [Word(Order, 0, 1)]);
    }
    if call == Call::Offer {
        reasons.add(NO_ROOM, Of::Lent, [Length(OfferedNodes, NODES_BYTES - 1)]);
        reasons.add(NO_ROOM, Of::Lent, [Length(OfferedOrder, ORDER_BYTES - 1)]);
        reasons.add(BAD_TREE, Of::Lent, [Word(OfferedNodes, 0, NAN)]);
        reasons.add(BAD_TREE, Of::Lent, [Word(OfferedOrder, 0, 1)]);
    }
}

fn counts(call: Call, base: &Base, reasons: &mut Reasons) {
    let count = |list: List, count: u32| [Word(Plan, list as usize, count)];
    for list in List::ALL {
        let most = list.section().records as u32;
        reasons.add(NO_ROOM, Of::Counts, count(list, most + 1));
        // A full list. Too many cutters would come with the objects of a crowded plan.
        let breaks = list == List::Objects && base.crowded;
        if call.enters() == Some(list) && !breaks {
            reasons.add(NO_ROOM, Of::Lent, count(list, most));
        }
    }
    if base.crowded && call.tests().contains(&List::Objects) {
        let objects = base.table[List::Objects as usize];
        for more in 1..=2 {
            reasons.add(NO_ROOM, Of::Places, count(List::Objects, objects + more));
        }
    }
}

/// What takes the extent of an upright capsule whose kind stands at a place. The kind is named
/// too, so that this does not go together with another kind.
fn flat(at: usize) -> [(usize, u32); 2] {
    [(at, CAPSULE), (at + 5, UPRIGHT[1].to_bits())]
}

/// What makes a plane of a shape whose kind stands at a place.
fn plane(at: usize) -> [(usize, u32); 4] {
    [(at, PLANE), (at + 1, 0), (at + 2, 0), (at + 3, 0)]
}

/// What makes a capsule of no extent of any shape.
fn flat_from_any(at: usize) -> [(usize, u32); 8] {
    std::array::from_fn(|i| (at + i, if i == 0 { CAPSULE } else { 0 }))
}

fn pieces(list: List, base: &Base, reasons: &mut Reasons) {
    let plan = |(i, word)| Word(Plan, i, word);
    let at = list.section().at(0);
    let place = base.table[at + PLACE];
    let own = [
        (NO_MATERIAL, (at + MATERIAL, 3)),
        (BAD_WORD, (at + BLEND, NAN)),
        (BAD_WORD, (at + KIND, 7)),
        (BAD_WORD, (at + SHAPE, NAN)),
    ];
    for (number, change) in own {
        reasons.add(number, Of::Pieces, [plan(change)]);
    }
    reasons.add(NO_ROOM, Of::Places, [plan((at + CUTS, 9))]);
    reasons.add(NO_ROOM, Of::Places, [plan((at + PLACE, place ^ 1))]);
    if list == List::Planes {
        reasons.add(WRONG_KIND, Of::Pieces, [plan((at + KIND, 0))]);
        // It is of a wrong kind too, but 4 comes before 5.
        reasons.add(NO_EXTENT, Of::Pieces, flat_from_any(at + KIND).map(plan));
    } else {
        reasons.add(NO_EXTENT, Of::Pieces, flat(at + KIND).map(plan));
        let last = list.section().at(base.table[list as usize] as usize - 1);
        reasons.add(WRONG_KIND, Of::Pieces, plane(last + KIND).map(plan));
        reasons.add(NO_MATERIAL, Of::Pieces, [plan((last + MATERIAL, u32::MAX))]);
        reasons.add(NO_ROOM, Of::Places, [plan((last + CUTS, 9))]);
    }
    let cutter = CUTTERS.at(place as usize);
    reasons.add(NO_EXTENT, Of::Cutters, flat(cutter).map(plan));
    for change in [(cutter, 7), (cutter + 1, NAN), (cutter + ROW, u32::MAX)] {
        reasons.add(BAD_WORD, Of::Cutters, [plan(change)]);
    }
}

/// The one light of the plan: broken words, corners that are one, and its centre at the point.
fn lights(reasons: &mut Reasons) {
    let at = LIGHTS.at(0);
    reasons.add(BAD_WORD, Of::Pieces, [Word(Plan, at + 11, NAN)]);
    reasons.add(BAD_WORD, Of::Pieces, [Word(Plan, at + 12, (-1f32).to_bits())]);
    let first = |i: usize| sound::LIGHT[i].to_bits();
    reasons.add(NO_EXTENT, Of::Pieces, [0, 1, 2].map(|i| Word(Plan, at + 3 + i, first(i))));
    reasons.add(NO_EXTENT, Of::Pieces, [0, 1, 2].map(|i| Word(Plan, at + 9 + i, first(i))));
    // With the second corner moved it is not the centre any more, but a lower number is sent then.
    let centre = |i: usize| (0..4).map(|corner| sound::LIGHT[3 * corner + i]).sum::<f32>() * 0.25;
    reasons.add(AT_CENTRE, Of::Lent, [0, 1, 2].map(|i| Word(Args, i, centre(i).to_bits())));
}

fn args(call: Call, reasons: &mut Reasons) {
    let given = |(i, word)| Word(Args, i, word);
    match call {
        Call::Build | Call::Offer => {}
        Call::AddMaterial | Call::DistMat => bad_args(&[0], reasons),
        Call::Query => bad_args(&[0, 3], reasons),
        Call::Trace => bad_args(&[2, 3, 7], reasons),
        Call::SoftShadow => bad_args(&[1, 6, 8], reasons),
        Call::Direct => bad_args(&[1, 8, 13], reasons),
        Call::DirectDiffuse => bad_args(&[2, 5, 6], reasons),
        Call::AddLight => {
            reasons.add(BAD_WORD, Of::Args, [Word(Args, 12, NAN)]);
            // The second corner at the first; the fourth at the first; the fourth at the second.
            for (corner, at) in [(3, 0), (9, 0), (9, 3)] {
                let word = |i: usize| Word(Args, corner + i, sound::LIGHT[at + i].to_bits());
                reasons.add(NO_EXTENT, Of::Args, [0, 1, 2].map(word));
            }
        }
        Call::AddPlane | Call::AddObject => {
            reasons.add(NO_MATERIAL, Of::Args, [Word(Args, MATERIAL, 3)]);
            reasons.add(BAD_WORD, Of::Args, [Word(Args, BLEND, NAN)]);
            reasons.add(BAD_WORD, Of::Args, [Word(Args, KIND, 7)]);
            reasons.add(NO_ROOM, Of::ArgsEnd, [Word(Args, CUTS, 9)]);
            reasons.add(NO_ROOM, Of::ArgsEnd, [Length(Args, 4 * 3 * ROW - 1)]);
            reasons.add(NO_ROOM, Of::ArgsEnd, [Length(Args, 4 * ROW)]);
            reasons.add(BAD_WORD, Of::ArgsCutters, [Word(Args, ROW, 7)]);
            reasons.add(BAD_WORD, Of::ArgsCutters, [Word(Args, 2 * ROW + 4, NAN)]);
            reasons.add(NO_EXTENT, Of::ArgsCutters, flat(ROW).map(given));
            if call == Call::AddPlane {
                reasons.add(WRONG_KIND, Of::Args, [Word(Args, KIND, 0)]);
                reasons.add(NO_EXTENT, Of::Args, flat_from_any(KIND).map(given));
            } else {
                reasons.add(WRONG_KIND, Of::Args, plane(KIND).map(given));
                reasons.add(NO_EXTENT, Of::Args, flat(KIND).map(given));
            }
        }
        _ => call.stray(),
    }
}

fn bad_args(places: &[usize], reasons: &mut Reasons) {
    for &i in places {
        reasons.add(BAD_WORD, Of::Args, [Word(Args, i, NAN)]);
    }
}
