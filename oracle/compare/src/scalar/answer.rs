//! The answer of an accepted call, worked out with no use of our library: the hardware's root,
//! document 01's formula, the source's shapes, form factors and surfaces.

use crate::call::{Call, OUT_WORDS};
use crate::light::formula;
use crate::source::{corners, material, prim, put_vec3, vec3};
use interflect::{acos, shade};

pub fn answer(call: Call, args: &[u32]) -> [u32; OUT_WORDS] {
    let mut out = [0; OUT_WORDS];
    match call {
        Call::Root => out[0] = f32::from_bits(args[0]).sqrt().to_bits(),
        Call::Acos => out[0] = acos::formula(f32::from_bits(args[0])).to_bits(),
        Call::PrimDist => {
            let distance = prim(args[0], &args[1..9]).dist(vec3(&args[9..12]));
            out[0] = distance.to_bits();
        }
        Call::PrimBounds => {
            let bounds = prim(args[0], &args[1..9]).bounds();
            let (lo, hi) = bounds.expect("a plane has no bounds and is refused");
            put_vec3(&mut out, lo);
            put_vec3(&mut out[3..], hi);
        }
        Call::FormFactor => out[0] = formula::form_factor(&corners(args)).to_bits(),
        Call::Fresnel => put_vec3(&mut out, shade::fresnel_schlick(f32::from_bits(args[0]), vec3(&args[1..]))),
        Call::F0 => put_vec3(&mut out, shade::f0_of(&material(args))),
        Call::DiffuseAlbedo => put_vec3(&mut out, shade::diffuse_albedo(&material(args))),
        _ => call.stray(),
    }
    out
}
