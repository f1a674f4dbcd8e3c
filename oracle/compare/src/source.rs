//! The source's values of words.

use glam::Vec3;
use interflect::scene::{Material, QuadLight};
use interflect::sdf::Prim;

/// The primitive of a kind and its eight words.
pub fn prim(kind: u32, words: &[u32]) -> Prim {
    let f = |i: usize| f32::from_bits(words[i]);
    let (a, b) = (vec3(&words[..3]), vec3(&words[3..6]));
    match kind {
        0 => Prim::Sphere { c: a, r: f(3) },
        1 => Prim::RoundBox { c: a, b, r: f(6) },
        2 => Prim::Plane { n: a, h: f(3) },
        3 => Prim::Capsule { a, b, r: f(6) },
        4 => Prim::Torus { c: a, major: f(3), minor: f(4) },
        5 => Prim::Cylinder { a, b, r: f(6) },
        6 => Prim::Cone { a, b, ra: f(6), rb: f(7) },
        _ => panic!("kind {kind} is unknown and is refused"),
    }
}

/// Four corners.
pub fn corners(words: &[u32]) -> [Vec3; 4] {
    std::array::from_fn(|i| vec3(&words[3 * i..]))
}

pub fn light(words: &[u32]) -> QuadLight {
    QuadLight { verts: corners(words), emit: vec3(&words[12..]) }
}

/// Albedo, roughness, metallic. It shines with nothing of its own.
pub fn material(words: &[u32]) -> Material {
    let f = |i: usize| f32::from_bits(words[i]);
    Material { albedo: vec3(words), roughness: f(3), metallic: f(4), emissive: Vec3::ZERO }
}

pub fn vec3(words: &[u32]) -> Vec3 {
    let f = |i: usize| f32::from_bits(words[i]);
    Vec3::new(f(0), f(1), f(2))
}

/// The words of a vector, from a place on.
pub fn put_vec3(words: &mut [u32], v: Vec3) {
    for (i, word) in words[..3].iter_mut().enumerate() {
        *word = v[i].to_bits();
    }
}
