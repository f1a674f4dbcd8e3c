//! Times of calls on a plan but those that ask. Ours read and test the plan each time that they are made.

use super::draw::{self, ROOM};
use super::layout::{List, CUTTERS, OBJECTS};
use super::lent::Lent;
use super::model::{Piece, Plan};
use super::{sound, source};
use crate::bench::{pair, single, Race, Rows, REPEATED};
use crate::call::Call;
use crate::rng::Rng;
use crate::viewer;
use glam::Vec3;

pub fn rows() -> Rows {
    let full = plan(&mut Rng::new(7), OBJECTS.records, 4);
    vec![empty(), test(&full), entry(&full)]
}

fn empty() -> Box<dyn Race> {
    let plan = Plan::default();
    let scene = source::scene(&plan);
    let mut lent = asked(&plan);
    let theirs = move |_: &()| source::query(&scene, Vec3::ZERO, f32::MAX, 0);
    pair("query, empty plan", REPEATED.to_vec(), move |_| viewer::lend(Call::Query, &mut lent), theirs)
}

/// The last cutter is of no kind, so that all is read and tested, and nothing is asked.
fn test(full: &Plan) -> Box<dyn Race> {
    let mut lent = asked(full);
    lent.plan.put(CUTTERS.at(CUTTERS.records - 1), &[7]);
    single("test of a full plan", move || viewer::lend(Call::Query, &mut lent))
}

/// The last object that there is room for, which is taken out of the count again.
fn entry(full: &Plan) -> Box<dyn Race> {
    let last = OBJECTS.records - 1;
    let mut lent = Lent::new(full, 0);
    lent.args(&full.objects[last].args(|| 0));
    single("entry, last object", move || {
        lent.plan.put(List::Objects as usize, &[last as u32]);
        viewer::lend(Call::AddObject, &mut lent)
    })
}

/// So many objects in a room, each with so many cutters, and with no blend: one of all sizes would make every box as
/// large as the room.
pub fn plan(rng: &mut Rng, objects: usize, cutters: usize) -> Plan {
    let piece = |_| Piece { blend: 0, ..draw::piece(rng, &ROOM, List::Objects, 4, cutters) };
    Plan { objects: (0..objects).map(piece).collect(), materials: vec![sound::material(); 4], ..Plan::default() }
}

/// A plan lent with the args of a query, without a bound.
fn asked(plan: &Plan) -> Lent {
    let mut lent = Lent::new(plan, 0);
    lent.args(&[0, 0, 0, f32::MAX.to_bits(), 0]);
    lent
}
