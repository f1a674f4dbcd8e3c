//! Random rays at and beside random panels.

use super::check::{check, panels};
use crate::call::OUT_BYTES;
use crate::draw::{fit, within};
use crate::judge::{ALONG, DONE, NORMAL, ORIGIN};
use crate::plan::draw::{light, style};
use crate::plan::layout::LIGHTS;
use crate::progress::through;
use crate::rng::Rng;
use crate::words;
use glam::Vec3;
use interflect::scene::QuadLight;
use interflect::trace::intersect_quad;

/// Rays at the same panels.
const OF_A_LIST: usize = 50;

pub fn run(rays: usize) -> Result<String, String> {
    let mut rng = Rng::new(63);
    let (mut hits, mut misses) = (0, 0);
    for _ in through("emitters", 0..rays / OF_A_LIST, "lists of panels") {
        let style = style(&mut rng);
        let many = rng.below(LIGHTS.records + 1);
        let lights: Vec<u32> = (0..many).flat_map(|_| light(&mut rng, &style)).collect();
        let lights = words::bytes(&lights);
        let panels = panels(&lights);
        for _ in 0..OF_A_LIST {
            let ray = words::bytes(&words::bits(&ray(&mut rng, &panels)));
            let mut out = [0; OUT_BYTES];
            assert_eq!(check(&lights, &ray, &mut out)?, DONE, "panels and rays are drawn sound");
            let hit = words::word(&out, 0) == 1;
            hits += usize::from(hit);
            misses += usize::from(!hit);
        }
    }
    if hits.min(misses) < rays / 10 {
        return Err(format!("badly drawn: {hits} hits, {misses} misses"));
    }
    Ok(format!("{rays} rays, each the source's; {hits} hits"))
}

/// At a panel's inside, edge or outside from its front or back, or anywhere; `tmax` often about the hit.
pub fn ray(rng: &mut Rng, panels: &[QuadLight]) -> [f32; 7] {
    let mut ray = [0.0; 7];
    let mut anywhere = |range| [0; 3].map(|_| within(rng, range));
    let (mut origin, mut direction) = (anywhere(ORIGIN), anywhere(NORMAL));
    let at = (!panels.is_empty()).then(|| panels[rng.below(panels.len())]);
    if let Some(panel) = at.filter(|_| !rng.one_in(8)) {
        (origin, direction) = toward(rng, &panel, origin);
    }
    let [origin, direction] = [origin.map(|x| fit(x, ORIGIN)), direction.map(|x| fit(x, NORMAL))];
    ray[..3].copy_from_slice(&origin);
    ray[3..6].copy_from_slice(&direction);
    let [ro, rd] = [origin, direction].map(|[x, y, z]| Vec3::new(x, y, z));
    let t = at.and_then(|panel| intersect_quad(&panel.verts, ro, rd)).unwrap_or(1.0);
    let about = rng.pick(&[t, t.next_up(), t.next_down(), 2.0 * t, 100_000.0, 100_000.0]);
    ray[6] = if rng.one_in(8) { within(rng, ALONG) } else { fit(about, ALONG) };
    ray
}

/// A ray at a place of the panel's plane, from somewhere about it or from the given point.
fn toward(rng: &mut Rng, panel: &QuadLight, far: [f32; 3]) -> ([f32; 3], [f32; 3]) {
    let mut across = || rng.pick(&[0.0, 1.0, 0.5]) + rng.pick(&[0.0, 0.0, 1e-7, 0.3]) * (rng.unit() * 2.0 - 1.0);
    let (u, v) = (across(), across());
    let [first, second, _, fourth] = panel.verts;
    let target = first + (second - first) * u + (fourth - first) * v;
    let size = (second - first).length() + (fourth - first).length();
    let beside = [0, 1, 2].map(|i| target[i] + size * (rng.unit() * 4.0 - 2.0));
    // Straight before the panel, at times.
    let before = target + panel.normal() * size;
    let origin = rng.pick(&[far, beside, beside, [before.x, before.y, before.z]]).map(|x| fit(x, ORIGIN));
    let way = target - Vec3::new(origin[0], origin[1], origin[2]);
    let longest = way.x.abs().max(way.y.abs()).max(way.z.abs());
    let scale = rng.pick(&[1.0 / way.length(), 1.0 / way.length(), 1.5 / longest, 1e-3]);
    // Of no length where the ray begins at its target.
    let scale = if scale.is_finite() { scale } else { 1.0 };
    (origin, [way.x, way.y, way.z].map(|x| x * scale))
}
