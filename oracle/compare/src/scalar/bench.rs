//! Times of root, arc cosine and shapes.

use super::{draw, judge, MOST_ARGS};
use crate::bench::{pair, Race, Rows, INPUTS};
use crate::call::{Call, OUT_BYTES};
use crate::draw::within;
use crate::judge::{DONE, KINDS, PLANE, RADIUS};
use crate::rng::Rng;
use crate::source::{prim, vec3};
use crate::{viewer, words};
use glam::Vec3;
use interflect::acos;
use interflect::sdf::Prim;

/// Floats of a loop: over fewer, a predictor learns the one branch of an arc cosine.
const FLOATS: usize = 4 * INPUTS;

const SHAPES: [&str; KINDS as usize] = ["sphere", "round box", "plane", "capsule", "torus", "cylinder", "cone"];

pub fn rows() -> Rows {
    let roots = floats(|rng| within(rng, RADIUS));
    let cosines = floats(|rng| rng.unit() * 2.0 - 1.0);
    let ours_acos = |x: &f32| ours(Call::Acos, &x.to_le_bytes());
    let mut rows = vec![
        pair("root", roots, |x| ours(Call::Root, &x.to_le_bytes()), |x| x.sqrt()),
        pair("acos, libm", cosines.clone(), ours_acos, |x| x.acos()),
        pair("acos, formula", cosines, ours_acos, |x| acos::formula(*x)),
    ];
    for (kind, shape) in SHAPES.iter().enumerate() {
        rows.push(dist(shape, |k| k == kind as u32));
    }
    rows.push(dist("any", |_| true));
    let inputs = shapes(|k| k != PLANE);
    rows.push(pair("bounds, any", inputs, |i| ours(Call::PrimBounds, &i.args), |i| i.prim.bounds().unwrap()));
    rows
}

fn dist(name: &str, wanted: impl Fn(u32) -> bool) -> Box<dyn Race> {
    let inputs = shapes(wanted);
    pair(&format!("dist, {name}"), inputs, |i| ours(Call::PrimDist, &i.args), |i| i.prim.dist(i.point))
}

fn floats(draw: impl Fn(&mut Rng) -> f32) -> Vec<f32> {
    let mut rng = Rng::new(4);
    (0..FLOATS).map(|_| draw(&mut rng)).collect()
}

/// A shape and a point in the form of each side, so that neither pays for a change of form.
struct Input {
    args: [u8; 4 * MOST_ARGS],
    prim: Prim,
    point: Vec3,
}

/// Inputs that are accepted, of the kinds that are wanted.
fn shapes(wanted: impl Fn(u32) -> bool) -> Vec<Input> {
    let mut rng = Rng::new(5);
    let mut inputs = Vec::new();
    while inputs.len() < INPUTS {
        let drawn = draw::prim_args(&mut rng);
        let mut args = [0; 4 * MOST_ARGS];
        words::put(&mut args, &drawn);
        let accepted = judge::number(Call::PrimDist, &args, OUT_BYTES) == DONE;
        if accepted && wanted(drawn[0]) {
            let prim = prim(drawn[0], &drawn[1..9]);
            let point = vec3(&drawn[9..12]);
            inputs.push(Input { args, prim, point });
        }
    }
    inputs
}

#[inline(always)]
pub fn ours(call: Call, args: &[u8]) -> [u8; OUT_BYTES] {
    let mut out = [0; OUT_BYTES];
    viewer::send(call, args, &mut out);
    out
}
