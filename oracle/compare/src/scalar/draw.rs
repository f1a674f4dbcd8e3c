//! Random arguments over the whole domain: all scales, repeated values, points on the shape.

use super::MOST_ARGS;
use crate::draw::{between_bits, fit, within};
use crate::judge::{self, Range, COORD, POINT, RADIUS};
use crate::rng::Rng;

/// The args of viewer_prim_dist, accepted but for capsules of no extent. Their first nine words
/// are those of viewer_prim_bounds. Words that the kind does not use hold anything.
pub fn prim_args(rng: &mut Rng) -> [u32; MOST_ARGS] {
    let kind = rng.below(judge::KINDS as usize) as u32;
    let ranges = judge::ranges(kind).unwrap();
    let mut shape = words_of_shape(rng, ranges);
    let ends = matches!(kind, 3 | 5 | 6);
    if ends {
        near_ends(rng, &mut shape);
    }
    let point = point_for(rng, &shape[..ranges.len()], ends);

    let mut args = [0; MOST_ARGS];
    args[0] = kind;
    for i in 0..8 {
        args[1 + i] = match ranges.get(i) {
            Some(_) => shape[i].to_bits(),
            None => rng.word(),
        };
    }
    for i in 0..3 {
        args[9 + i] = point[i].to_bits();
    }
    args
}

fn words_of_shape(rng: &mut Rng, ranges: &[Range]) -> [f32; 8] {
    let mut shape = [0.0; 8];
    let pool = [0; 3].map(|_| within(rng, COORD));
    let scale = within(rng, RADIUS);
    let style = rng.below(6);
    for (i, &range) in ranges.iter().enumerate() {
        let signed = range.lo < 0.0;
        let spread = rng.unit() * 2.0 - 1.0;
        shape[i] = match style {
            // Each word for itself.
            0..=1 => within(rng, range),
            // Few values, each many times.
            2 => fit(rng.pick(&pool), range),
            // A room.
            3 => fit(spread * if signed { 10.0 } else { 3.0 }, range),
            // Far from the origin, with its parts close together.
            4 if signed => fit(pool[i % 3] + spread * scale, range),
            4 => fit(spread * scale, range),
            // Corners of the domain.
            _ => fit(rng.pick(&[range.lo, 0.0, range.hi]), range),
        };
    }
    shape
}

/// Sometimes brings the second end to the first, or close to it, or straight beside it.
fn near_ends(rng: &mut Rng, shape: &mut [f32; 8]) {
    match rng.below(12) {
        0 => shape.copy_within(..3, 3),
        1 => {
            let tiny = between_bits(rng, 0.0, 1e-4);
            for i in 0..3 {
                let step = (rng.unit() * 2.0 - 1.0) * tiny;
                shape[3 + i] = fit(shape[i] + step, COORD);
            }
        }
        2 => {
            let axis = rng.below(3);
            for i in (0..3).filter(|&i| i != axis) {
                shape[3 + i] = shape[i];
            }
        }
        _ => {}
    }
}

fn point_for(rng: &mut Rng, shape: &[f32], ends: bool) -> [f32; 3] {
    let first = [shape[0], shape[1], shape[2]];
    let second = if ends { [shape[3], shape[4], shape[5]] } else { first };
    let along = within(rng, judge::NORMAL);
    let scale = within(rng, RADIUS);
    let style = rng.below(8);
    let mut point = [0.0; 3];
    for i in 0..3 {
        let spread = rng.unit() * 2.0 - 1.0;
        let p = match style {
            0..=2 => within(rng, POINT),
            3 => spread * 10.0,
            4 => rng.pick(shape),
            5 => rng.pick(&[first[i], second[i]]),
            6 => first[i] + (second[i] - first[i]) * along,
            _ => first[i] + spread * scale,
        };
        point[i] = fit(p, POINT);
    }
    point
}
