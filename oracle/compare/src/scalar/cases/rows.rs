//! Document 01's rows P1 to P8, with the answers that it gives.

use super::{prim_args, prim_case, Case};
use crate::call::Call;
use crate::judge::DONE;

pub struct Row {
    pub name: &'static str,
    pub case: Case,
    pub answer: u32,
}

pub fn rows() -> Vec<Row> {
    let axis = [0.0, 0.0, 0.0, 0.0, 2.0, 0.0];
    let capsule = [&axis[..], &[1.0]].concat();
    let cone = [&axis[..], &[1.0, 0.0]].concat();
    let ball = [0.0, 0.0, 0.0, 1.0];
    let cube = [0.0, 0.0, 0.0, 1.0, 1.0, 1.0, 0.0];
    let ring = [0.0, 0.0, 0.0, 2.0, 1.0];
    vec![
        root("P1", 0.25, 0.5f32.to_bits()),
        root("P2", 2.0, 0x3fb5_04f3),
        dist("P3", 0, &ball, [3.0, 4.0, 0.0], 4.0),
        dist("P4", 1, &cube, [4.0, 5.0, 0.0], 5.0),
        dist("P4", 1, &cube, [0.0, 0.0, 0.0], -1.0),
        dist("P5", 4, &ring, [0.0, 0.0, 0.0], 1.0),
        dist("P6", 3, &capsule, [0.0, 5.0, 0.0], 2.0),
        dist("P7", 5, &capsule, [0.0, 5.0, 0.0], 3.0),
        dist("P8", 6, &cone, [0.0, 3.0, 0.0], 1.0),
    ]
}

fn root(name: &'static str, x: f32, answer: u32) -> Row {
    let case = Case { call: Call::Root, args: vec![x.to_bits()], number: DONE };
    Row { name, case, answer }
}

fn dist(name: &'static str, kind: u32, shape: &[f32], point: [f32; 3], answer: f32) -> Row {
    let case = prim_case(Call::PrimDist, prim_args(kind, shape, point), DONE);
    let answer = answer.to_bits();
    Row { name, case, answer }
}
