//! Document 01's two differences, where they are plain to see: the source as it is faults on a sixth corner and
//! gives no number where the representative point is at no distance; ours answers.

use super::chosen::{planes, square, with_lights};
use super::formula;
use crate::call::{Call, OUT_BYTES};
use crate::fault::fault;
use crate::judge::DONE;
use crate::plan::check::expect;
use crate::plan::lent::Lent;
use crate::plan::model::Plan;
use crate::plan::source::scene;
use crate::scalar::check::expect as expect_scalar;
use crate::source::corners;
use crate::words;
use glam::Vec3;
use interflect::scene::Material;
use interflect::{ltc, shade};
use interflect_formula::differences::met;

/// Corners below, at, below, at the horizon: the least that makes a sixth.
const SIX: [f32; 12] = [0.0, 0.0, -1.0, 0.0, 0.0, 0.0, 0.0, 0.0, -1.0, 0.0, 0.0, 0.0];
const FAULT: &str = "index out of bounds: the len is 5 but the index is 5";

/// A skew panel that the horizon of the origin crosses four times, above first; from there its corners are
/// gone through in the other order.
const ACROSS: [f32; 15] = [1.0, 1.0, -1.0, 3.0, -1.0, -1.0, 3.0, 1.0, 1.0, 1.0, -1.0, 1.0, 5.0, 10.0, 20.0];

pub fn run() -> Result<String, String> {
    sixth_corner()?;
    no_distance()?;
    Ok(format!("a sixth corner, where the source says `{FAULT}`, and a representative point at no distance"))
}

fn must_fault<T>(what: &str, f: impl FnOnce() -> T) -> Result<(), String> {
    match fault(f) {
        Some(message) if message == FAULT => Ok(()),
        message => Err(format!("{what}: the source as it is says {message:?}")),
    }
}

fn sixth_corner() -> Result<(), String> {
    let six = words::bits(&SIX);
    must_fault("form factor", || ltc::quad_form_factor(&corners(&six)))?;
    let before = met();
    expect_scalar(Call::FormFactor, &words::bytes(&six), &mut [0; OUT_BYTES], DONE)?;
    if met().sixth != before.sixth + 1 {
        return Err("the clip has no sixth corner here".to_string());
    }
    let plan = with_lights(planes(&[]), &[ACROSS]);
    let (up, scene) = (Vec3::Y, scene(&plan));
    must_fault("direct_diffuse", || shade::direct_diffuse(&scene, Vec3::ZERO, up, Vec3::ONE))?;
    must_fault("direct", || shade::direct(&scene, Vec3::ZERO, up, up, &Material::default()))?;
    both(&plan, [0.0; 3])
}

/// Just off a panel that shines on it, beside the centre: the way to the nearest place of the panel is 1e-30.
fn no_distance() -> Result<(), String> {
    let plan = with_lights(planes(&[]), &[square(0.0)]);
    let point = Vec3::new(0.25, -1e-30, 0.5);
    let (plain, count) = shade::direct(&scene(&plan), point, Vec3::Y, Vec3::Y, &Material::default());
    if !plain.x.is_nan() {
        return Err(format!("the source as it is gives {plain:?} at no distance"));
    }
    let before = met();
    let scene = formula::scene(&scene(&plan));
    let (ours, same_count) = interflect_formula::shade::direct(
        &scene,
        point,
        Vec3::Y,
        Vec3::Y,
        &interflect_formula::scene::Material::default(),
    );
    let only_diffuse = interflect_formula::shade::direct_diffuse(&scene, point, Vec3::Y, Vec3::splat(0.8)).0;
    let close = (ours.x - only_diffuse.x).abs() <= 1e-5 * only_diffuse.x;
    if met().no_way != before.no_way + 1 || count != same_count || !close || ours.x <= 0.0 {
        return Err(format!("with no specular part it is {ours:?}, not {only_diffuse:?}"));
    }
    both(&plan, [point.x, point.y, point.z])
}

/// Our library, by the list and by the tree, seen from straight above.
fn both(plan: &Plan, point: [f32; 3]) -> Result<(), String> {
    let mut lent = Lent::new(plan, 0);
    for tree in [0, 1] {
        lent.tree = tree;
        let up = [0.0, 1.0, 0.0];
        lent.args(&words::bits(&[&point[..], &up, &[0.8; 3]].concat()));
        expect(Call::DirectDiffuse, &mut lent, DONE)?;
        lent.args(&words::bits(&[&point[..], &up, &up, &[0.8, 0.8, 0.8, 0.8, 0.0]].concat()));
        expect(Call::Direct, &mut lent, DONE)?;
    }
    Ok(())
}
