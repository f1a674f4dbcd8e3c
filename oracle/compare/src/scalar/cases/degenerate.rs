//! Shapes without a side, a radius or a length, from points on and off them.

use super::{prim_args, prim_case, Case};
use crate::call::Call;
use crate::judge::{DONE, NO_EXTENT, WRONG_KIND};

const CENTRES: [[f32; 3]; 4] =
    [[0.0, 0.0, 0.0], [1.0, -2.0, 0.5], [10_000.0, -10_000.0, 10_000.0], [-0.0, 1e-20, 3e-39]];

pub fn degenerate() -> Vec<Case> {
    let mut cases = Vec::new();
    for c in CENTRES {
        flat(c, &mut cases);
        for r in [0.0, 0.5, 10_000.0] {
            equal_ends(c, r, &mut cases);
        }
    }
    hardly_apart(&mut cases);
    about_the_least_length(&mut cases);
    cases
}

/// Zero radii, half sizes and normals.
fn flat(c: [f32; 3], cases: &mut Vec<Case>) {
    let [x, y, z] = c;
    let up = if y > 0.0 { y - 2.0 } else { y + 2.0 };
    add(0, &[x, y, z, 0.0], DONE, cases);
    add(1, &[x, y, z, 0.0, 0.0, 0.0, 0.0], DONE, cases);
    add(1, &[x, y, z, 0.0, 2.0, 0.0, 0.0], DONE, cases);
    add(1, &[x, y, z, 0.0, 2.0, 0.0, 1.0], DONE, cases);
    add(2, &[0.0, 0.0, 0.0, y], DONE, cases);
    add(2, &[0.0, -0.0, 1.0, -0.0], DONE, cases);
    add(3, &[x, y, z, x, up, z, 0.0], DONE, cases);
    add(4, &[x, y, z, 0.0, 0.0], DONE, cases);
    add(4, &[x, y, z, 2.0, 0.0], DONE, cases);
    add(4, &[x, y, z, 0.0, 2.0], DONE, cases);
    add(5, &[x, y, z, x, up, z, 0.0], DONE, cases);
    add(6, &[x, y, z, x, up, z, 0.0, 0.0], DONE, cases);
    add(6, &[x, y, z, x, up, z, 1.0, 1.0], DONE, cases);
    add(6, &[x, y, z, x, up, z, 0.0, 1.0], DONE, cases);
}

fn equal_ends([x, y, z]: [f32; 3], r: f32, cases: &mut Vec<Case>) {
    add(3, &[x, y, z, x, y, z, r], NO_EXTENT, cases);
    add(5, &[x, y, z, x, y, z, r], DONE, cases);
    add(6, &[x, y, z, x, y, z, r, 0.0], DONE, cases);
    add(6, &[x, y, z, x, y, z, 0.25, r], DONE, cases);
}

/// Ends that differ: the square of 1e-23 is computed as 0, that of 3e-23 is not.
fn hardly_apart(cases: &mut Vec<Case>) {
    for (step, number) in [(f32::from_bits(1), NO_EXTENT), (1e-23, NO_EXTENT), (3e-23, DONE)] {
        for axis in 0..3 {
            let mut ends = [0.0; 6];
            ends[3 + axis] = step;
            let shape = [&ends[..], &[0.5, 0.25]].concat();
            add(3, &shape[..7], number, cases);
            add(5, &shape[..7], DONE, cases);
            add(6, &shape, DONE, cases);
        }
    }
}

/// Cylinder and cone turn at a squared length of 1e-12.
fn about_the_least_length(cases: &mut Vec<Case>) {
    let turn = 1e-6f32.to_bits();
    for step in (turn - 4..=turn + 4).map(f32::from_bits) {
        let shape = [0.0, 0.0, 0.0, 0.0, step, 0.0, 0.5, 0.25];
        add(5, &shape[..7], DONE, cases);
        add(6, &shape, DONE, cases);
    }
}

/// Both calls, the distance from several points; a shape that is accepted has no bounds where it
/// is a plane.
fn add(kind: u32, shape: &[f32], number: u32, cases: &mut Vec<Case>) {
    let first = [shape[0], shape[1], shape[2]];
    let beside = first.map(|x| x + 1.0);
    let across = [first[0], first[1] + 0.5, first[2]];
    for point in [first, beside, across, [0.0; 3], [3.0, -4.0, 200_000.0]] {
        cases.push(prim_case(Call::PrimDist, prim_args(kind, shape, point), number));
    }
    let number = if kind == 2 { WRONG_KIND } else { number };
    cases.push(prim_case(Call::PrimBounds, prim_args(kind, shape, [0.0; 3]), number));
}
