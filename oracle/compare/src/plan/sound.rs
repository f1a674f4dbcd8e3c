//! Chosen values well inside the domain, of which single words are then changed.

use super::layout::{List, LIGHT_WORDS};
use super::model::{Light, Material, Piece, Plan, Prim};
use crate::call::Call;
use crate::chosen::shape;
use crate::judge::PLANE;
use crate::words;

pub const MATERIAL: [f32; 5] = [0.75, 0.5, 0.25, 0.5, 1.0];

/// A skew panel: no change of one word makes it flat.
pub const LIGHT: [f32; LIGHT_WORDS] = [0.5, 3.0, 0.25, 2.5, 3.5, -0.5, 3.0, 3.25, 2.0, 0.75, 2.75, 2.5, 1.0, 20.0, 0.5];

/// A point, from which a ray goes to the panel, or which has such a normal; and whence it is seen. No
/// light has its centre there, also where all corners are whole numbers.
pub const POINT: [f32; 3] = [1.1, -2.3, 3.6];
pub const DIRECTION: [f32; 3] = [0.25, 0.75, -0.25];
pub const VIEW: [f32; 3] = [-0.5, 0.5, 0.75];

pub fn material() -> Material {
    MATERIAL.map(f32::to_bits)
}

pub fn light() -> Light {
    LIGHT.map(f32::to_bits)
}

pub fn prim(kind: u32) -> Prim {
    Prim::new(kind, &words::bits(shape(kind)))
}

/// A piece of a kind, less cutters of these kinds.
pub fn piece(kind: u32, cutters: &[u32]) -> Piece {
    Piece {
        material: 1,
        blend: 0.25f32.to_bits(),
        prim: prim(kind),
        cutters: cutters.iter().map(|&kind| prim(kind)).collect(),
    }
}

/// Three materials, two planes, a light and three objects; some of the pieces have cutters.
pub fn plan() -> Plan {
    Plan {
        materials: vec![material(); 3],
        planes: vec![piece(PLANE, &[0]), piece(PLANE, &[3, 5])],
        lights: vec![light()],
        objects: vec![piece(0, &[3, 2]), piece(3, &[]), piece(6, &[4, 1, 6])],
    }
}

/// Args that the call accepts on that plan. A piece has two cutters.
pub fn args(call: Call) -> Vec<u32> {
    let point = [1.0, -2.0, 3.5].map(f32::to_bits);
    match call {
        Call::AddMaterial => material().to_vec(),
        Call::AddLight => light().to_vec(),
        Call::AddPlane => piece(PLANE, &[3, 0]).args(|| 0),
        Call::AddObject => piece(3, &[3, 0]).args(|| 0),
        Call::Build | Call::Offer => Vec::new(),
        Call::Query => [&point[..], &[100f32.to_bits(), 77]].concat(),
        Call::DistMat => point.to_vec(),
        Call::Trace => words::bits(&[&POINT[..], &DIRECTION, &[0.25, 50.0]].concat()),
        Call::SoftShadow => words::bits(&[&POINT[..], &DIRECTION, &[0.25, 50.0, 8.0]].concat()),
        Call::Direct => words::bits(&[&POINT[..], &DIRECTION, &VIEW, &MATERIAL].concat()),
        Call::DirectDiffuse => words::bits(&[&POINT[..], &DIRECTION, &MATERIAL[..3]].concat()),
        _ => call.stray(),
    }
}

/// A kind that a piece of the list may have.
pub fn kind(list: List) -> u32 {
    match list {
        List::Planes => PLANE,
        _ => 1,
    }
}
