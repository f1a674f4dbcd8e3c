//! Random plans: in clusters, about one centre, on whole numbers so that distances tie, tiny,
//! huge, and over the whole domain; and points to ask from.

use super::judge::{judge_light, EMISSION};
use super::layout::*;
use super::model::{Light, Material, Piece, Plan, Prim};
use crate::draw::{fit, within};
use crate::judge::{self, judge_prim, Lowest, CAPSULE, COORD, DONE, KINDS, NORMAL, PLANE, POINT, RADIUS, UNIT};
use crate::rng::Rng;
use crate::scalar::draw::prim_args;

/// How pieces lie: about a centre, each so far from it and so large.
#[derive(Clone, Copy)]
pub struct Style {
    centre: [f32; 3],
    spread: f32,
    size: f32,
    whole: bool,
    /// Every word for itself, over the whole domain.
    wild: bool,
}

/// Furniture.
pub const ROOM: Style = Style { centre: [0.0; 3], spread: 10.0, size: 3.0, whole: false, wild: false };

pub fn style(rng: &mut Rng) -> Style {
    let far = [0; 3].map(|_| within(rng, COORD));
    let about = |centre, spread, size| Style { centre, spread, size, ..ROOM };
    match rng.below(8) {
        0 => about(far, 1.0, 0.5),
        1 => about(far, 0.0, 5.0),
        2 => about([0.0; 3], 1e-3, 1e-4),
        3 => about([0.0; 3], 10_000.0, 10_000.0),
        4..=5 => Style { whole: true, ..about([0.0; 3], 4.0, 2.0) },
        6 => Style { wild: true, ..ROOM },
        _ => ROOM,
    }
}

impl Style {
    fn about(&self, rng: &mut Rng, x: f32, spread: f32) -> f32 {
        let x = x + spread * (rng.unit() * 2.0 - 1.0);
        fit(if self.whole { x.round() } else { x }, COORD)
    }

    fn radius(&self, rng: &mut Rng) -> f32 {
        let r = self.size * rng.unit();
        fit(if self.whole { r.round() } else { r }, RADIUS)
    }
}

pub fn prim(rng: &mut Rng, style: &Style, kind: u32) -> Prim {
    loop {
        let prim = if style.wild { wild(rng, kind) } else { placed(rng, style, kind) };
        let mut lowest = Lowest::default();
        judge_prim(kind, &prim.shape, &mut lowest);
        if lowest.number() == DONE {
            return prim;
        }
    }
}

fn wild(rng: &mut Rng, kind: u32) -> Prim {
    loop {
        let args = prim_args(rng);
        if args[0] == kind {
            return Prim::new(kind, &args[1..9]);
        }
    }
}

fn placed(rng: &mut Rng, style: &Style, kind: u32) -> Prim {
    let ended = matches!(kind, CAPSULE | 5 | 6);
    let mut shape = [0.0; 8];
    for (i, range) in judge::ranges(kind).unwrap().iter().enumerate() {
        shape[i] = match (kind, i) {
            (PLANE, 0..3) if style.whole => rng.pick(&[-1.0, 0.0, 1.0]),
            (PLANE, 0..3) => within(rng, NORMAL),
            (_, 0..3) => style.about(rng, style.centre[i], style.spread),
            // The second end, often straight beside the first.
            (_, 3..6) if ended && rng.one_in(2) => shape[i - 3],
            (_, 3..6) if ended => style.about(rng, shape[i - 3], style.size),
            _ if range.lo < 0.0 => style.about(rng, 0.0, style.spread),
            _ => style.radius(rng),
        };
    }
    Prim::new(kind, &shape.map(f32::to_bits))
}

/// A piece with so many cutters, of materials below a number.
pub fn piece(rng: &mut Rng, style: &Style, list: List, materials: usize, cutters: usize) -> Piece {
    let kind = match list {
        List::Planes => PLANE,
        _ => rng.pick(&[0, 1, 3, 4, 5, 6]),
    };
    let prim = prim(rng, style, kind);
    let near = beside(&prim, style);
    Piece {
        material: rng.below(materials) as u32,
        blend: within(rng, RADIUS).to_bits(),
        prim,
        cutters: (0..cutters).map(|_| cutter(rng, &near)).collect(),
    }
}

/// Cutters lie about their piece, so that they cut something.
fn beside(prim: &Prim, style: &Style) -> Style {
    let centre = match prim.kind {
        PLANE => style.centre,
        _ => std::array::from_fn(|i| f32::from_bits(prim.shape[i])),
    };
    Style { centre, spread: style.size, ..*style }
}

fn cutter(rng: &mut Rng, style: &Style) -> Prim {
    let kind = rng.below(KINDS as usize) as u32;
    prim(rng, style, kind)
}

pub fn material(rng: &mut Rng) -> Material {
    [0; MATERIAL_WORDS].map(|_| within(rng, UNIT).to_bits())
}

pub fn light(rng: &mut Rng, style: &Style) -> Light {
    loop {
        let light: Light = std::array::from_fn(|i| {
            let x = match i {
                12.. => within(rng, EMISSION),
                _ if style.wild => within(rng, COORD),
                _ => style.about(rng, style.centre[i % 3], style.spread + style.size),
            };
            x.to_bits()
        });
        let mut lowest = Lowest::default();
        judge_light(&light, &mut lowest);
        if lowest.number() == DONE {
            return light;
        }
    }
}

/// A plan of so many objects; of the rest, anything from few to all.
pub fn plan(rng: &mut Rng, objects: usize) -> Plan {
    let styles = [style(rng), style(rng), style(rng)];
    // One style, or now and then a mix of three.
    let styles = if rng.one_in(4) { &styles[..] } else { &styles[..1] };
    let materials = rng.pick(&[1, 2, 5, 63, 64]);
    let most = rng.pick(&[0, 1, 3, 8]);
    let mut left = CUTTERS.records;
    let mut pieces = |rng: &mut Rng, list: List, count: usize| -> Vec<Piece> {
        (0..count)
            .map(|_| {
                let cutters = rng.below(most + 1).min(left);
                left -= cutters;
                let style = rng.pick(styles);
                piece(rng, &style, list, materials, cutters)
            })
            .collect()
    };
    let planes = rng.pick(&[0, 0, 1, 2, 5, 16]);
    let planes = pieces(rng, List::Planes, planes);
    let objects = pieces(rng, List::Objects, objects);
    let lights = rng.pick(&[0, 1, 2, 16]);
    Plan {
        materials: (0..materials).map(|_| material(rng)).collect(),
        lights: (0..lights).map(|_| light(rng, &styles[0])).collect(),
        planes,
        objects,
    }
}

/// How many objects a plan has: all sizes, with a good share of small ones and full ones.
pub fn objects(rng: &mut Rng) -> usize {
    match rng.below(6) {
        0 => rng.below(4),
        1..=2 => rng.below(20),
        3 => rng.below(70),
        4 => rng.below(OBJECTS.records + 1),
        _ => rng.pick(&[0, 1, 16, 64, 255, 256]),
    }
}

/// A point to ask from: anywhere, or at or about one of the pieces.
pub fn point(rng: &mut Rng, plan: &Plan) -> [u32; 3] {
    let pieces = [&plan.objects, &plan.objects, &plan.planes];
    let pieces = rng.pick(&pieces);
    let mut at = [0.0; 3];
    if !pieces.is_empty() {
        let piece = &pieces[rng.below(pieces.len())];
        let prim = match piece.cutters.len() {
            0 => piece.prim,
            cutters if rng.one_in(2) => piece.cutters[rng.below(cutters)],
            _ => piece.prim,
        };
        at = std::array::from_fn(|i| f32::from_bits(prim.shape[i]));
    }
    let style = rng.below(6);
    let scale = rng.pick(&[1e-4, 1e-2, 1.0, 10.0, 1_000.0]);
    let point: [f32; 3] = std::array::from_fn(|i| {
        let spread = rng.unit() * 2.0 - 1.0;
        match style {
            0 => within(rng, POINT),
            1 => at[i],
            2 => (at[i] + spread * 3.0).round(),
            3 => spread * 10.0,
            _ => at[i] + spread * scale,
        }
    });
    point.map(|x| fit(x, POINT).to_bits())
}
