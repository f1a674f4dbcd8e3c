//! The number that each call on a plan must send, from document 01 and VIEWER.md alone.

use super::layout::*;
use super::lent::Lent;
use crate::call::{Call, OUT_BYTES};
use crate::judge::{
    judge_floats, judge_prim, magnitude, not_negative, Lowest, Range, ALONG, AT_CENTRE, BAD_WORD, COORD, DONE, NORMAL,
    NO_EXTENT, NO_MATERIAL, NO_ROOM, NO_TREE, ORIGIN, PLANE, POINT, RADIUS, SHARPNESS, UNIT, WRONG_KIND,
};
use crate::source::vec3;
use crate::tree::judged;
use crate::words;
use glam::Vec3;

pub const EMISSION: Range = not_negative(10_000.0);
pub const BOUND: Range = magnitude(f32::MAX);

/// Of all the numbers that apply, from the arguments, the tables and the plan, the lowest.
pub fn number(call: Call, lent: &Lent) -> u32 {
    let mut lowest = Lowest::default();
    lowest.apply(NO_ROOM, lent.out.len() < OUT_BYTES);
    if lent.looks_at_tree(call) {
        lowest.apply(NO_ROOM, lent.nodes.len() < NODES_BYTES);
        lowest.apply(NO_ROOM, lent.order.len() < ORDER_BYTES);
    }
    if call == Call::Offer {
        lowest.apply(NO_ROOM, lent.offered_nodes.len() < NODES_BYTES);
        lowest.apply(NO_ROOM, lent.offered_order.len() < ORDER_BYTES);
    }
    if call.asks() {
        lowest.apply(BAD_WORD, lent.tree > 1);
    }
    let plan = judge_plan(call, lent.plan.bytes(), &mut lowest);
    judge_args(call, lent.args.bytes(), plan, &mut lowest);
    // The numbers of a tree are above all these, so it is judged where none of them applies: its
    // tables are of full size then, and the plan's objects are sound.
    if lowest.number() == DONE {
        judge_tree(call, lent, &mut lowest);
    }
    // So is the number of a point that is at a light.
    if lowest.number() == DONE && call.tests_lights() {
        lowest.apply(AT_CENTRE, at_some_centre(lent));
    }
    lowest.number()
}

fn judge_tree(call: Call, lent: &Lent, lowest: &mut Lowest) {
    let number = match call {
        Call::Build => judged::built(lent).1.number,
        Call::Offer => judged::offered(lent).1.number,
        _ if call.asks() && lent.tree == 1 && !judged::stands(lent) => NO_TREE,
        _ => DONE,
    };
    lowest.apply(number, number != DONE);
}

/// What an entry looks at besides its own words. Where the plan is refused it is of no
/// importance, since what it decides is 2 and 3.
#[derive(Clone, Copy)]
struct State {
    counts: [u32; 4],
    cutters: i64,
}

fn judge_plan(call: Call, plan: &[u8], lowest: &mut Lowest) -> Option<State> {
    // A short table's words are not judged.
    let short = plan.len() < PLAN_BYTES;
    lowest.apply(NO_ROOM, short);
    if short {
        return None;
    }
    let counts = List::ALL.map(|list| words::word(plan, list as usize));
    let high = |list: &List| counts[*list as usize] as usize > list.section().records;
    let some_high = List::ALL.iter().any(high);
    lowest.apply(NO_ROOM, some_high);
    if some_high {
        return None;
    }
    let cutters = judge_pieces(plan, counts, call.tested_pieces(), lowest);
    if call.tests_lights() {
        for i in 0..counts[List::Lights as usize] as usize {
            judge_light(&row(plan, LIGHTS.at(i)), lowest);
        }
    }
    Some(State { counts, cutters })
}

/// Judges the pieces of the lists, each with its cutters; gives the number of the latter.
fn judge_pieces(plan: &[u8], counts: [u32; 4], lists: impl Iterator<Item = List>, lowest: &mut Lowest) -> i64 {
    let mut placed = true;
    let mut in_all = 0;
    let mut blocks = Vec::new();
    for list in lists {
        let mut of_list = 0;
        for i in 0..counts[list as usize] as usize {
            let piece = row(plan, list.section().at(i));
            judge_own_words(&piece, list, counts, lowest);
            let cuts = i64::from(piece[CUTS]);
            let place = match list {
                List::Planes => CUTTERS.records as i64 - (of_list + cuts),
                _ => of_list,
            };
            of_list += cuts;
            placed &= cuts <= MOST_CUTTERS as i64 && i64::from(piece[PLACE]) == place;
            blocks.push(place..place + cuts);
        }
        in_all += of_list;
    }
    placed &= in_all <= CUTTERS.records as i64;
    lowest.apply(NO_ROOM, !placed);
    if placed {
        for place in blocks.into_iter().flatten() {
            judge_cutter(&row(plan, CUTTERS.at(place as usize)), lowest);
        }
    }
    in_all
}

fn judge_own_words(piece: &[u32; ROW], list: List, counts: [u32; 4], lowest: &mut Lowest) {
    let materials = counts[List::Materials as usize];
    lowest.apply(NO_MATERIAL, piece[MATERIAL] >= materials);
    judge_floats(&piece[BLEND..], &[RADIUS], lowest);
    judge_prim(piece[KIND], &piece[SHAPE..], lowest);
    // An unknown kind is of another kind too, but gets 1.
    let plane = piece[KIND] == PLANE;
    lowest.apply(WRONG_KIND, plane != (list == List::Planes));
}

fn judge_cutter(cutter: &[u32; ROW], lowest: &mut Lowest) {
    judge_prim(cutter[0], &cutter[1..], lowest);
}

fn judge_args(call: Call, args: &[u8], plan: Option<State>, lowest: &mut Lowest) {
    if let (Some(list), Some(plan)) = (call.enters(), plan) {
        let full = plan.counts[list as usize] as usize == list.section().records;
        lowest.apply(NO_ROOM, full);
    }
    let short = args.len() < 4 * call.args_words();
    lowest.apply(NO_ROOM, short);
    if short {
        return;
    }
    let words = words::all(args);
    match call {
        Call::AddMaterial => judge_floats(&words, &[UNIT; MATERIAL_WORDS], lowest),
        Call::AddLight => judge_light(&words, lowest),
        Call::Build | Call::Offer => {}
        Call::AddPlane => judge_piece(&words, List::Planes, plan, lowest),
        Call::AddObject => judge_piece(&words, List::Objects, plan, lowest),
        _ => judge_floats(&words, asked(call), lowest),
    }
}

/// The ranges of the words that a call asks with; of a query's, the material word may be any.
pub fn asked(call: Call) -> &'static [Range] {
    const P: Range = POINT;
    const O: Range = ORIGIN;
    const N: Range = NORMAL;
    const C: Range = COORD;
    const U: Range = UNIT;
    match call {
        Call::Query => &[P, P, P, BOUND],
        Call::DistMat => &[P, P, P],
        Call::Trace => &[O, O, O, N, N, N, ALONG, ALONG],
        Call::SoftShadow => &[O, O, O, N, N, N, ALONG, ALONG, SHARPNESS],
        Call::Direct => &[C, C, C, N, N, N, N, N, N, U, U, U, U, U],
        Call::DirectDiffuse => &[C, C, C, N, N, N, U, U, U],
        _ => call.stray(),
    }
}

/// Whether the computed length from the shading point to some light's centre is 0. The plan is
/// sound, and so are the arguments.
fn at_some_centre(lent: &Lent) -> bool {
    let point = vec3(&words::all(lent.args.bytes()));
    let lights = 0..lent.plan.word(List::Lights as usize) as usize;
    let mut centres = lights.map(|i| centre(&row(lent.plan.bytes(), LIGHTS.at(i))));
    centres.any(|centre| (centre - point).length() == 0.0)
}

/// A light's centre: its corners summed from the first to the last, then a quarter of that.
pub fn centre(light: &[u32]) -> Vec3 {
    let corner = |i: usize| vec3(&light[3 * i..]);
    (((corner(0) + corner(1)) + corner(2)) + corner(3)) * 0.25
}

fn judge_piece(args: &[u32], list: List, plan: Option<State>, lowest: &mut Lowest) {
    let (rows, _) = args.as_chunks::<ROW>();
    let piece = &rows[0];
    let counts = plan.map_or([0; 4], |plan| plan.counts);
    judge_own_words(piece, list, counts, lowest);
    let cuts = piece[CUTS] as usize;
    let unread = cuts > MOST_CUTTERS || rows.len() < 1 + cuts;
    lowest.apply(NO_ROOM, unread);
    if unread {
        return;
    }
    for cutter in &rows[1..1 + cuts] {
        judge_cutter(cutter, lowest);
    }
    let exceeded = |plan: State| plan.cutters + cuts as i64 > CUTTERS.records as i64;
    lowest.apply(NO_ROOM, plan.is_some_and(exceeded));
}

pub fn judge_light(words: &[u32], lowest: &mut Lowest) {
    judge_floats(words, &[COORD; 12], lowest);
    judge_floats(&words[12..], &[EMISSION; 3], lowest);
    let corner = |i: usize| vec3(&words[3 * i..]);
    let (e1, e2) = (corner(1) - corner(0), corner(3) - corner(0));
    let flat = e1.dot(e1) == 0.0 || e2.dot(e2) == 0.0 || e1.cross(e2).length() == 0.0;
    lowest.apply(NO_EXTENT, flat);
}

fn row(plan: &[u8], at: usize) -> [u32; ROW] {
    std::array::from_fn(|i| words::word(plan, at + i))
}
