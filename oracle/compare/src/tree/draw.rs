//! Random plans that make trees of all forms: those of `plan::draw`, and objects in a row, with few
//! or one centre, huge beside tiny, on a lattice, and at powers of 1.25, where trees are deep.

use crate::draw::{fit, within};
use crate::judge::{judge_prim, Lowest, CAPSULE, COORD, DONE};
use crate::plan::draw;
use crate::plan::layout::OBJECTS;
use crate::plan::model::{Plan, Prim};
use crate::rng::Rng;
use crate::words;

pub fn plan(rng: &mut Rng) -> Plan {
    if rng.one_in(8) {
        return powers(rng);
    }
    let objects = draw::objects(rng);
    let mut plan = draw::plan(rng, objects);
    // Some keep the blends that they have, which are of all sizes.
    if !rng.one_in(4) {
        blend_less(rng, &mut plan);
    }
    match rng.below(10) {
        0 => in_a_row(rng, &mut plan),
        1 => few_centres(rng, &mut plan),
        2 => huge_and_tiny(rng, &mut plan),
        3 => lattice(rng, &mut plan),
        4 => diagonal(rng, &mut plan),
        _ => {}
    }
    plan
}

fn blend_less(rng: &mut Rng, plan: &mut Plan) {
    let most = rng.pick(&[0.0, 0.0, 1e-3, 0.5]);
    for piece in &mut plan.objects {
        piece.blend = (most * rng.unit()).to_bits();
    }
}

/// Moves a shape so that its first point lies there; it stays where it is when that would take its
/// extent.
fn moved(prim: &Prim, to: [f32; 3]) -> Prim {
    let mut shape = prim.shape.map(f32::from_bits);
    let ends = matches!(prim.kind, CAPSULE | 5 | 6);
    for i in 0..3 {
        if ends {
            shape[3 + i] = fit(to[i] + (shape[3 + i] - shape[i]), COORD);
        }
        shape[i] = fit(to[i], COORD);
    }
    let moved = Prim::new(prim.kind, &shape.map(f32::to_bits));
    let mut lowest = Lowest::default();
    judge_prim(moved.kind, &moved.shape, &mut lowest);
    if lowest.number() == DONE {
        moved
    } else {
        *prim
    }
}

fn place(plan: &mut Plan, mut at: impl FnMut(usize) -> [f32; 3]) {
    for (i, piece) in plan.objects.iter_mut().enumerate() {
        piece.prim = moved(&piece.prim, at(i));
    }
}

/// All centres on a line along an axis, evenly or not.
fn in_a_row(rng: &mut Rng, plan: &mut Plan) {
    let axis = rng.below(3);
    let step = within(rng, COORD).abs() / 128.0;
    let even = rng.one_in(2);
    place(plan, |i| {
        let along = if even { i as f32 } else { rng.unit() * 128.0 };
        let mut at = [1.0; 3];
        at[axis] = along * step;
        at
    });
}

fn few_centres(rng: &mut Rng, plan: &mut Plan) {
    let many = 1 + rng.below(4);
    let centres: Vec<[f32; 3]> = (0..many).map(|_| [0; 3].map(|_| within(rng, COORD))).collect();
    place(plan, |_| rng.pick(&centres));
}

fn huge_and_tiny(rng: &mut Rng, plan: &mut Plan) {
    for piece in &mut plan.objects {
        let scale = rng.pick(&[1e-6, 1e-3, 1.0, 1e3]);
        let at = [0; 3].map(|_| scale * (rng.unit() * 2.0 - 1.0));
        let sphere = [&at[..], &[scale * rng.unit()]].concat();
        piece.prim = Prim::new(0, &words::bits(&sphere));
    }
}

/// Whole numbers, so that extents, bins and costs tie.
fn lattice(rng: &mut Rng, plan: &mut Plan) {
    let side = 1 + rng.below(6);
    place(plan, |_| [0; 3].map(|_| rng.below(side) as f32));
}

/// Two extents or all three are equal.
fn diagonal(rng: &mut Rng, plan: &mut Plan) {
    let flat = rng.one_in(2);
    let turn = rng.below(3);
    place(plan, |_| {
        let x = rng.unit() * 8.0;
        let mut at = [x, x, if flat { 0.0 } else { x }];
        at.rotate_left(turn);
        at
    });
}

/// Each as far out as 1.25 times the one before, along one axis or several: splits take few
/// objects off at a time.
fn powers(rng: &mut Rng) -> Plan {
    let arms = rng.pick(&[1, 1, 1, 2, 4, 6]);
    let many = (40 * arms + rng.below(80)).min(OBJECTS.records);
    let mut plan = draw::plan(rng, many);
    let first = rng.below(6);
    let radius = rng.pick(&[0.0, 0.0, 1e-7]);
    let far = 20 + rng.below(22) as i32;
    for (i, piece) in plan.objects.iter_mut().enumerate() {
        let arm = first + i % arms;
        let sign = [1.0, -1.0][arm % 2];
        let mut sphere = [0.0, 0.0, 0.0, radius];
        sphere[arm / 2 % 3] = sign * 1.25f32.powi(far - (i / arms) as i32);
        piece.prim = Prim::new(0, &words::bits(&sphere));
        piece.blend = 0;
    }
    if rng.one_in(2) {
        plan.objects.reverse();
    }
    plan
}
