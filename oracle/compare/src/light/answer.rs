//! What the source answers to the calls that march or shade: the `out` of an accepted one.

use super::formula;
use crate::call::{Call, OUT_WORDS};
use crate::source::{put_vec3, vec3};
use glam::Vec3;
use interflect::scene::Scene;
use interflect::trace::{soft_shadow, trace};
use interflect_formula::scene::Material;
use interflect_formula::shade;

/// What the normal of a hit costs the source, and not us.
const TAPS: u32 = 4;

pub fn answer(call: Call, scene: &Scene, args: &[u32]) -> [u32; OUT_WORDS] {
    let v = |i: usize| vec3(&args[i..]);
    let f = |i: usize| f32::from_bits(args[i]);
    let mut out = [0; OUT_WORDS];
    match call {
        Call::Trace => {
            let (hit, count) = trace(scene, v(0), v(3), f(6), f(7));
            out[6] = count;
            if let Some(hit) = hit {
                out[0] = 1;
                out[1] = hit.t.to_bits();
                put_vec3(&mut out[2..], hit.p);
                out[5] = hit.mat;
                out[6] -= TAPS;
            }
        }
        Call::SoftShadow => {
            let (visibility, count) = soft_shadow(scene, v(0), v(3), f(6), f(7), f(8));
            out[0] = visibility.to_bits();
            out[1] = count;
        }
        Call::Direct => {
            let material = Material { albedo: v(9), roughness: f(12), metallic: f(13), emissive: Vec3::ZERO };
            shaded(&mut out, shade::direct(&formula::scene(scene), v(0), v(3), v(6), &material));
        }
        Call::DirectDiffuse => shaded(&mut out, shade::direct_diffuse(&formula::scene(scene), v(0), v(3), v(6))),
        _ => call.stray(),
    }
    out
}

fn shaded(out: &mut [u32; OUT_WORDS], (radiance, count): (Vec3, u32)) {
    put_vec3(out, radiance);
    out[3] = count;
}
