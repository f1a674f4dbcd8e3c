//! Times of form factors and Fresnel.

use crate::bench::rooms::classroom;
use crate::bench::{pair, Rows, INPUTS};
use crate::call::Call;
use crate::rng::Rng;
use crate::scalar::bench::ours;
use crate::words;
use glam::Vec3;
use interflect::ltc::{frame, quad_form_factor, to_local};
use interflect::shade::fresnel_schlick;

/// Corners as each side has them.
type Panel = ([Vec3; 4], [u8; 48]);

pub fn rows() -> Rows {
    let mut rng = Rng::new(10);
    let panels = panels(&mut rng);
    let factor = |(_, args): &Panel| ours(Call::FormFactor, args);
    let formula = |(corners, _): &Panel| interflect_formula::ltc::quad_form_factor(corners);
    vec![
        pair("form factor, libm", panels.clone(), factor, |(corners, _)| quad_form_factor(corners)),
        pair("form factor, formula", panels, factor, formula),
        pair("fresnel", surfaces(&mut rng), |s| ours(Call::Fresnel, &s.2), |s| fresnel_schlick(s.0, s.1)),
    ]
}

/// Cosines and F0, with the bytes of both.
fn surfaces(rng: &mut Rng) -> Vec<(f32, Vec3, [u8; 16])> {
    let surface = |_| {
        let [cosine, x, y, z] = [0; 4].map(|_| rng.unit());
        (cosine, Vec3::new(x, y, z), bytes(&[cosine, x, y, z]))
    };
    (0..INPUTS).map(surface).collect()
}

/// Panels of the classroom from places in it.
fn panels(rng: &mut Rng) -> Vec<Panel> {
    let room = classroom();
    let (tangent, other) = frame(Vec3::Y);
    let panel = |i: usize| {
        let light = &room.scene.lights[i % room.scene.lights.len()];
        let local = to_local(&light.verts, room.place(rng), tangent, other, Vec3::Y);
        (local, bytes(&local.map(|v| [v.x, v.y, v.z]).concat()))
    };
    (0..INPUTS).map(panel).collect()
}

fn bytes<const BYTES: usize>(floats: &[f32]) -> [u8; BYTES] {
    let mut bytes = [0; BYTES];
    words::put(&mut bytes, &words::bits(floats));
    bytes
}
