//! Furnished rooms: floor, ceiling and walls, desks, chairs, bins, lamps and rings, some of them cut, and
//! panels that shine. The y axis is up; sizes are metres.

use crate::judge::{Lowest, DONE, PLANE};
use crate::plan::draw;
use crate::plan::judge::judge_light;
use crate::plan::layout::{LIGHTS, OBJECTS};
use crate::plan::model::{Light, Piece, Plan, Prim};
use crate::plan::sound;
use crate::rng::Rng;
use crate::words;

const SPHERE: u32 = 0;
const BOX: u32 = 1;
const CAPSULE: u32 = 3;
const TORUS: u32 = 4;
const CYLINDER: u32 = 5;
const CONE: u32 = 6;

/// A room about the y axis: half its width and depth, and its height.
struct Size {
    half: [f32; 2],
    height: f32,
}

fn prim(kind: u32, shape: &[f32]) -> Prim {
    let mut words = words::bits(shape);
    words.resize(8, 0);
    Prim::new(kind, &words)
}

fn piece(material: usize, kind: u32, shape: &[f32]) -> Piece {
    Piece { material: material as u32, blend: 0, prim: prim(kind, shape), cutters: Vec::new() }
}

/// A top on four legs.
fn desk([x, z]: [f32; 2], material: usize) -> Vec<Piece> {
    let mut pieces = vec![piece(material, BOX, &[x, 0.72, z, 0.6, 0.02, 0.35, 0.01])];
    for (dx, dz) in [(-0.55, -0.3), (-0.55, 0.3), (0.55, -0.3), (0.55, 0.3)] {
        let leg = [x + dx, 0.0, z + dz, x + dx, 0.7, z + dz, 0.025];
        pieces.push(piece(material, CYLINDER, &leg));
    }
    pieces
}

/// A seat, a back and three rails.
fn chair([x, z]: [f32; 2], material: usize) -> Vec<Piece> {
    let mut pieces = vec![
        piece(material, BOX, &[x, 0.45, z, 0.2, 0.02, 0.2, 0.015]),
        piece(material, BOX, &[x, 0.75, z + 0.19, 0.2, 0.15, 0.01, 0.01]),
    ];
    for (dx, dz) in [(-0.18, 0.0), (0.18, 0.0), (0.0, -0.18)] {
        pieces.push(piece(material, CAPSULE, &[x + dx, 0.02, z + dz, x + dx, 0.44, z + dz, 0.015]));
    }
    pieces
}

/// A bin without its inside, a lamp, a globe and a ring.
fn small([x, z]: [f32; 2], material: usize, which: usize) -> Vec<Piece> {
    match which {
        0 => {
            let mut bin = piece(material, CYLINDER, &[x, 0.0, z, x, 0.4, z, 0.15]);
            bin.cutters.push(prim(CYLINDER, &[x, 0.02, z, x, 0.5, z, 0.14]));
            vec![bin]
        }
        1 => vec![
            piece(material, CONE, &[x, 1.1, z, x, 1.3, z, 0.15, 0.03]),
            piece(material, CAPSULE, &[x, 0.75, z, x + 0.1, 1.15, z, 0.01]),
        ],
        2 => vec![piece(material, SPHERE, &[x, 0.9, z, 0.15])],
        _ => vec![piece(material, TORUS, &[x, 1.5, z, 0.3, 0.05])],
    }
}

/// Cable slots and holes.
fn cut(rng: &mut Rng, piece: &mut Piece) {
    let at: [f32; 3] = std::array::from_fn(|i| f32::from_bits(piece.prim.shape[i]));
    for _ in 0..1 + rng.below(3) {
        let [x, y, z] = at.map(|x| x + 0.3 * (rng.unit() - 0.5));
        let r = 0.02 + 0.1 * rng.unit();
        piece.cutters.push(match rng.below(3) {
            0 => prim(SPHERE, &[x, y, z, r]),
            1 => prim(CAPSULE, &[x, y, z, x + 0.3, y, z, r]),
            _ => prim(BOX, &[x, y, z, r, r, r, 0.0]),
        });
    }
}

/// Floor, ceiling and walls.
fn shell(size: &Size) -> [[f32; 4]; 6] {
    let Size { half: [w, d], height } = *size;
    [
        [0.0, 1.0, 0.0, 0.0],
        [0.0, -1.0, 0.0, -height],
        [1.0, 0.0, 0.0, -w],
        [-1.0, 0.0, 0.0, -w],
        [0.0, 0.0, 1.0, -d],
        [0.0, 0.0, -1.0, -d],
    ]
}

/// As many of these as there are.
fn planes(rng: &mut Rng, size: &Size, materials: usize) -> Vec<Piece> {
    let many = rng.pick(&[0, 1, 2, 6, 6]);
    let mut planes: Vec<Piece> =
        shell(size)[..many].iter().map(|plane| piece(rng.below(materials), PLANE, plane)).collect();
    if many == 6 && rng.one_in(2) {
        // A window in a wall.
        planes[2].cutters.push(prim(BOX, &[-size.half[0], 1.5, 0.0, 0.5, 0.6, 1.0, 0.0]));
    }
    planes
}

fn furniture(rng: &mut Rng, size: &Size, materials: usize) -> Vec<Piece> {
    let many = rng.pick(&[0, 1, 5, 20, 60, 120, 240]);
    let mut pieces: Vec<Piece> = Vec::new();
    while pieces.len() < many {
        let at = size.half.map(|half| half * (rng.unit() * 1.8 - 0.9));
        let material = rng.below(materials);
        let mut more = match rng.below(3) {
            0 => desk(at, material),
            1 => chair(at, material),
            _ => small(at, material, rng.below(4)),
        };
        if rng.one_in(3) {
            cut(rng, &mut more[0]);
        }
        pieces.extend(more);
    }
    pieces.truncate(OBJECTS.records);
    if rng.one_in(6) {
        for piece in &mut pieces {
            piece.blend = (rng.unit() * 0.1).to_bits();
        }
    }
    pieces
}

/// A rectangle about a place, from its edges; the emitting side is that of the edges' cross product.
fn rectangle(at: [f32; 3], e1: [f32; 3], e2: [f32; 3]) -> [[f32; 3]; 4] {
    let corner = |u: f32, v: f32| std::array::from_fn(|i| at[i] + e1[i] * u + e2[i] * v);
    [corner(-0.5, -0.5), corner(0.5, -0.5), corner(0.5, 0.5), corner(-0.5, 0.5)]
}

fn light(corners: [[f32; 3]; 4], emission: [f32; 3]) -> Light {
    let mut light = [0.0; 15];
    light[..12].copy_from_slice(&corners.concat());
    light[12..].copy_from_slice(&emission);
    light.map(f32::to_bits)
}

/// A panel below the ceiling, on a wall, tilted, skew, tiny, or turned about, so that it shines up.
fn panel(rng: &mut Rng, size: &Size) -> Light {
    let [w, d] = size.half;
    let mut about = |half: f32| half * (rng.unit() * 1.8 - 0.9);
    let (x, z, y) = (about(w), about(d), size.height - 0.05);
    let side = rng.pick(&[0.01, 0.3, 0.6, 1.2, 1.2, 3.0]);
    let mut corners = match rng.below(6) {
        // On a wall, looking in; and in a partition, where x is 0 and what is just beside it can be told.
        0 => rectangle([-w + 0.02, 0.5 * y, z], [0.0, side, 0.0], [0.0, 0.0, side]),
        1 => rectangle([0.0, 0.5 * y, z], [0.0, side, 0.0], [0.0, 0.0, side]),
        // Beneath a desk's height, looking any way.
        2 => rectangle([x, 0.6, z], [side, 0.2 * rng.unit(), 0.0], [0.0, side * rng.unit() - 0.3, side]),
        _ => rectangle([x, y, z], [side, 0.0, 0.0], [0.0, 0.0, side]),
    };
    match rng.below(6) {
        // Tilted.
        0 => corners[1..3].iter_mut().for_each(|corner| corner[1] -= 0.4 * side),
        // Skew by one corner, and by two that are across.
        1 => corners[rng.below(4)][1] -= 0.5 * side,
        2 => [0, 2].into_iter().for_each(|i| corners[i][1] -= 0.3 * side),
        3 => corners.iter_mut().flatten().for_each(|x| *x += 0.2 * side * (rng.unit() - 0.5)),
        _ => {}
    }
    if rng.one_in(4) {
        corners.reverse();
    }
    let most = rng.pick(&[1.0, 20.0, 10_000.0]);
    light(corners, [0; 3].map(|_| most * rng.unit()))
}

fn sound_panel(rng: &mut Rng, size: &Size) -> Light {
    loop {
        let panel = panel(rng, size);
        let mut lowest = Lowest::default();
        judge_light(&panel, &mut lowest);
        if lowest.number() == DONE {
            return panel;
        }
    }
}

pub fn room(rng: &mut Rng) -> Plan {
    let size = Size { half: [0; 2].map(|_| 2.5 + 4.0 * rng.unit()), height: 2.4 + rng.unit() };
    let materials = 1 + rng.below(8);
    let lights = rng.pick(&[0, 1, 2, 4, 8, 16]);
    Plan {
        materials: (0..materials).map(|_| draw::material(rng)).collect(),
        planes: planes(rng, &size, materials),
        objects: furniture(rng, &size, materials),
        lights: (0..lights).map(|_| sound_panel(rng, &size)).collect(),
    }
}

/// A panel that shines down.
pub fn hanging(at: [f32; 3], [wide, deep]: [f32; 2]) -> Light {
    light(rectangle(at, [wide, 0.0, 0.0], [0.0, 0.0, deep]), [12.0, 12.0, 11.0])
}

/// A classroom of 24 desks and 24 chairs, 240 pieces, beneath sixteen panels.
pub fn classroom() -> Plan {
    let places = (0..24).map(|i| [(i % 6) as f32 * 1.8 - 4.5, (i / 6) as f32 * 2.0 - 3.0]);
    let objects: Vec<Piece> = places.flat_map(|[x, z]| [desk([x, z], 1), chair([x, z + 0.7], 2)].concat()).collect();
    let panel = |i: usize| hanging([(i % 4) as f32 * 2.8 - 4.2, 2.95, (i / 4) as f32 * 2.4 - 3.6], [1.2, 0.6]);
    let size = Size { half: [6.0, 5.0], height: 3.0 };
    Plan {
        materials: vec![sound::material(); 3],
        planes: shell(&size).iter().map(|plane| piece(0, PLANE, plane)).collect(),
        objects,
        lights: (0..LIGHTS.records).map(panel).collect(),
    }
}

/// The same with every second piece cut.
pub fn cut_classroom() -> Plan {
    let mut plan = classroom();
    let mut rng = Rng::new(11);
    plan.objects.iter_mut().step_by(2).for_each(|piece| cut(&mut rng, piece));
    plan
}
