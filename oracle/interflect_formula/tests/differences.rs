//! Where the source faults or gives no number, and what document 01 has there.

use glam::Vec3;
use interflect_formula::differences::met;
use std::panic::catch_unwind;

/// Corners below, at, below, at the horizon: the least that makes a sixth.
const SIX: [[f32; 3]; 4] = [[0.0, 0.0, -1.0], [0.0; 3], [0.0, 0.0, -1.0], [0.0; 3]];

fn corners(of: [[f32; 3]; 4]) -> [Vec3; 4] {
    of.map(|[x, y, z]| Vec3::new(x, y, z))
}

fn turned(of: [[f32; 3]; 4]) -> [Vec3; 4] {
    let mut corners = corners(of);
    corners.rotate_left(1);
    corners
}

#[test]
fn the_source_faults_on_a_sixth_corner() {
    let fault = catch_unwind(|| interflect::ltc::quad_form_factor(&corners(SIX))).unwrap_err();
    let message = fault.downcast_ref::<String>().expect("a message");
    assert_eq!(message, "index out of bounds: the len is 5 but the index is 5");
}

#[test]
fn the_clip_ends_with_five() {
    let before = met();
    let mut out = [Vec3::ZERO; 5];
    let n = interflect_formula::ltc::clip_to_horizon(
        &corners([[0.0, 0.0, -1.0], [1.0; 3], [0.0, 0.0, -1.0], [3.0; 3]]),
        &mut out,
    );
    assert_eq!(n, 5);
    assert_eq!(out[4], Vec3::splat(3.0));
    assert_eq!(met().sixth, before.sixth + 1);
}

/// Above first, both end at five and lose a corner: no difference.
#[test]
fn above_first_is_no_difference() {
    let before = met();
    let skew = turned([[1.0, 0.0, -1.0], [0.0, 1.0, 1.0], [-1.0, 0.0, -1.0], [0.0, -1.0, 1.0]]);
    let (plain, formula) = (interflect::ltc::quad_form_factor(&skew), interflect_formula::ltc::quad_form_factor(&skew));
    assert!((plain - formula).abs() <= 0.000004);
    assert_eq!(met(), before);
}
