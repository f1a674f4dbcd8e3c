//! The source's two builds beside each other, with no library of ours: what does not depend on the arc cosine is
//! the same, and light is close.

use super::places::place;
use super::room::{classroom, room};
use super::{formula, panels};
use crate::call::Call;
use crate::judge::{AT_CENTRE, DONE};
use crate::plan::judge::{self, asked};
use crate::plan::layout::LIGHTS;
use crate::plan::lent::Lent;
use crate::plan::source::scene;
use crate::rng::Rng;
use crate::source::corners;
use glam::Vec3;
use interflect::bvh::Bvh;
use interflect_formula::differences::met;

const ROOMS: usize = 60;
const PLACES: usize = 30;

#[test]
fn the_builds_march_alike_and_shine_closely() {
    let mut rng = Rng::new(55);
    let mut unequal = 0;
    for turn in 0..ROOMS {
        let mut plain = scene(&room(&mut rng));
        plain.bvh = Bvh::build(&plain.objects);
        plain.use_bvh = turn % 2 == 0;
        let formula = formula::scene(&plain);
        for _ in 0..PLACES {
            let place = place(&mut rng, &plain);
            let (near, same) = (plain.dist_mat(place.point), formula.dist_mat(place.point));
            assert_eq!((near.d, near.mat), (same.d, same.mat));

            let before = met();
            let shaded = interflect_formula::shade::direct_diffuse(&formula, place.point, place.normal, Vec3::ONE);
            let at_centre = plain.lights.iter().any(|light| (light.center() - place.point).length() == 0.0);
            if met() != before || at_centre {
                continue;
            }
            let other = interflect::shade::direct_diffuse(&plain, place.point, place.normal, Vec3::ONE);
            // A form factor is off by so much at the most, also where one of both is just below what is seen.
            let most: f32 = plain.lights.iter().map(|light| light.emit.x * (formula::CLOSE + 1e-6)).sum();
            let off = (shaded.0.x - other.0.x).abs();
            assert!(off <= most + 1e-5 * shaded.0.x, "{} and, as it is, {}", shaded.0.x, other.0.x);
            unequal += usize::from(off > 0.0);
        }
    }
    assert!(unequal > 0, "the formula was not put in");
}

#[test]
fn form_factors_are_close() {
    let mut rng = Rng::new(56);
    for _ in 0..1_000_000 {
        // It asks that itself.
        formula::form_factor(&corners(&panels::corners(&mut rng).map(f32::to_bits)));
    }
}

#[test]
fn the_classroom_is_lit() {
    let plan = classroom();
    assert_eq!((plan.objects.len(), plan.lights.len()), (240, LIGHTS.records));
    let scene = scene(&plan);
    for (x, z) in [(0.0, 0.0), (-4.5, -3.0), (5.0, 4.0)] {
        let (radiance, count) = interflect::shade::direct_diffuse(&scene, Vec3::new(x, 0.745, z), Vec3::Y, Vec3::ONE);
        assert!(radiance.x > 0.1 && count > 100);
    }
}

/// Drawn places are accepted, or at a centre.
#[test]
fn places_are_sound() {
    let mut rng = Rng::new(57);
    for shift in 0..ROOMS {
        let plan = room(&mut rng);
        let scene = scene(&plan);
        let mut lent = Lent::new(&plan, shift);
        for _ in 0..PLACES {
            let place = place(&mut rng, &scene);
            for (call, args) in [place.rays(&mut rng, &scene), place.shading(&mut rng)].concat() {
                assert_eq!(args.len(), call.args_words());
                lent.args(&args);
                let number = judge::number(call, &lent);
                let lit = matches!(call, Call::Direct | Call::DirectDiffuse);
                assert!(number == DONE || (lit && number == AT_CENTRE), "{number} of {call:?}");
            }
        }
    }
}

#[test]
fn a_call_asks_with_as_many_words_as_it_has() {
    for &call in Call::ASKS {
        let words = asked(call).len() + usize::from(call == Call::Query);
        assert_eq!(words, call.args_words());
    }
}
