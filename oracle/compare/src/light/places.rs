//! Random places in a room to shade, and rays through it: ordinary ones, and all that the code has a turn
//! for.

use crate::call::Call;
use crate::draw::{fit, within};
use crate::judge::{Range, ALONG, COORD, NORMAL, ORIGIN, SHARPNESS, UNIT};
use crate::rng::Rng;
use crate::words;
use glam::Vec3;
use interflect::scene::{QuadLight, Scene};
use interflect::trace::trace;

/// A point, its normal and whence it is seen; always inside the domain.
pub struct Place {
    pub point: Vec3,
    pub normal: Vec3,
    pub view: Vec3,
}

fn spread(rng: &mut Rng) -> f32 {
    rng.unit() * 2.0 - 1.0
}

fn any(rng: &mut Rng, scale: f32) -> Vec3 {
    Vec3::new(spread(rng), spread(rng), spread(rng)) * scale
}

fn unit(rng: &mut Rng) -> Vec3 {
    loop {
        let v = any(rng, 1.0);
        let length = v.length();
        if length > 0.1 && length <= 1.0 {
            return v / length;
        }
    }
}

fn within_range(v: Vec3, range: Range) -> Vec3 {
    // What is not a number comes of a way of no length.
    let fit = |x: f32| if x.is_nan() { 0.0 } else { fit(x, range) };
    Vec3::new(fit(v.x), fit(v.y), fit(v.z))
}

fn panel(rng: &mut Rng, scene: &Scene) -> Option<QuadLight> {
    (!scene.lights.is_empty()).then(|| scene.lights[rng.below(scene.lights.len())])
}

/// Somewhere in the room.
fn inside(rng: &mut Rng) -> Vec3 {
    Vec3::new(3.0 * spread(rng), 2.4 * rng.unit(), 3.0 * spread(rng))
}

pub fn place(rng: &mut Rng, scene: &Scene) -> Place {
    let (point, facing) = point(rng, scene);
    let point = within_range(point, COORD);
    let normal = within_range(normal(rng, scene, point, facing), NORMAL);
    let view = within_range(view(rng, scene, point, normal), NORMAL);
    Place { point, normal, view }
}

/// A point and the normal that belongs to it.
fn point(rng: &mut Rng, scene: &Scene) -> (Vec3, Vec3) {
    let up = Vec3::Y;
    let near = panel(rng, scene);
    match (rng.below(12), near) {
        // On whatever a look into the room meets.
        (0..=3, _) => match trace(scene, inside(rng), unit(rng), 0.0, 20.0).0 {
            Some(hit) => (hit.p, hit.n),
            None => (inside(rng), up),
        },
        // On the floor, and just beneath a desk.
        (4, _) => (Vec3::new(4.0 * spread(rng), 0.0, 4.0 * spread(rng)), up),
        (5, _) if !scene.objects.is_empty() => {
            let object = &scene.objects[rng.below(scene.objects.len())];
            let (lo, hi) = object.prim.bounds().expect("an object is no plane");
            let middle = (lo + hi) * 0.5;
            (Vec3::new(middle.x, lo.y - rng.pick(&[0.0, 1e-3, 0.1]), middle.z), -up)
        }
        // In a panel's plane, on it or beside it, or just off it to either side.
        (6..=7, Some(panel)) => {
            let [first, second, _, fourth] = panel.verts;
            let mut along = || rng.pick(&[0.0, 0.25, 0.5, 1.0]) + rng.pick(&[0.0, 0.0, 0.3, 2.0]) * spread(rng);
            let (u, v) = (along(), along());
            let off = rng.pick(&[0.0, 1e-30, 1e-6, 1e-3, 0.3, -1e-30, -1e-3]);
            (first + (second - first) * u + (fourth - first) * v + panel.normal() * off, -panel.normal())
        }
        // In the middle of a panel, across which the horizon then goes: four times, where it is skew.
        (8, Some(panel)) => {
            let size = (panel.verts[1] - panel.verts[0]).length();
            let off = size * rng.pick(&[0.01, 0.1]);
            (panel.center() + any(rng, off), panel.normal() * rng.pick(&[1.0, -1.0, 0.5]))
        }
        // At its centre, or as good as.
        (9, Some(panel)) if rng.one_in(4) => {
            let off = rng.pick(&[0.0, 0.0, 1e-30, 1e-20]);
            (panel.center() + any(rng, off), panel.normal())
        }
        (9, Some(panel)) => (panel.verts[rng.below(4)], -panel.normal()),
        (10, _) => (Vec3::new(within(rng, COORD), within(rng, COORD), within(rng, COORD)), unit(rng)),
        _ => (inside(rng), unit(rng)),
    }
}

fn normal(rng: &mut Rng, scene: &Scene, point: Vec3, facing: Vec3) -> Vec3 {
    let sideways = Vec3::new(spread(rng), spread(rng), 0.0);
    match rng.below(16) {
        0..=8 => facing,
        // Straight down and up the z axis, where the frame turns, with what is left of the rest.
        9 => Vec3::new(0.0, 0.0, rng.pick(&[-1.0, 1.0, -0.0, 0.0])),
        10 => sideways + Vec3::new(0.0, 0.0, rng.pick(&[-1.0, -0.0, 0.0, -1e-30, -1f32.next_down()])),
        // Of no unit length, and of none.
        11 => any(rng, 1.5),
        12 => facing * rng.pick(&[0.1, 1.4, -1.0, 0.0]),
        13 => panel(rng, scene).map_or(facing, |panel| (panel.center() - point).normalize()),
        _ => unit(rng),
    }
}

fn view(rng: &mut Rng, scene: &Scene, point: Vec3, normal: Vec3) -> Vec3 {
    let to_light = panel(rng, scene).map_or(Vec3::Y, |panel| (panel.center() - point).normalize());
    match rng.below(12) {
        // Where the panel is mirrored.
        0..=2 => normal * (2.0 * normal.dot(to_light)) - to_light,
        // Straight from behind: the half way has no length.
        3 => -to_light,
        4 => to_light,
        // Edge-on.
        5 => normal.cross(unit(rng)),
        6 => any(rng, 1.5),
        7 => normal * rng.pick(&[1.0, -1.0, 0.0]),
        _ => unit(rng),
    }
}

impl Place {
    /// The args of both calls that shade.
    pub fn shading(&self, rng: &mut Rng) -> [(Call, Vec<u32>); 2] {
        let surface = [0; 5].map(|_| if rng.one_in(3) { within(rng, UNIT) } else { rng.unit() });
        let [point, normal, view] = [self.point, self.normal, self.view].map(parts);
        [
            (Call::Direct, words::bits(&[&point[..], &normal, &view, &surface].concat())),
            (Call::DirectDiffuse, words::bits(&[&point[..], &normal, &surface[..3]].concat())),
        ]
    }

    /// The args of both calls that march: from a place, or a camera, through the room or to a panel.
    pub fn rays(&self, rng: &mut Rng, scene: &Scene) -> [(Call, Vec<u32>); 2] {
        let light = panel(rng, scene);
        let beside = self.point + self.normal * 3e-3;
        let elsewhere = inside(rng);
        let origin = rng.pick(&[beside, beside, self.point, elsewhere]);
        let target = match light {
            Some(light) if rng.one_in(2) => light.center(),
            _ => inside(rng),
        };
        let way = target - origin;
        let direction = match rng.below(10) {
            0..=4 => way.normalize(),
            5 => unit(rng),
            6 => rng.pick(&[Vec3::Y, -Vec3::Y, Vec3::new(1.0, 0.0, 0.0), Vec3::new(0.0, 0.0, -1.0)]),
            7 => any(rng, 1.5),
            8 => rng.pick(&[Vec3::ZERO, self.view]),
            _ => self.normal,
        };
        let tmin = rng.pick(&[0.0, 0.015, 0.015, 1e-3, 0.5]);
        let far = [way.length(), 20.0, 20.0, 100.0, tmin, tmin.next_up(), 0.0, within(rng, ALONG)];
        let tmax = fit(rng.pick(&far), ALONG);
        let tmin = if rng.one_in(16) { within(rng, ALONG) } else { tmin };
        let k = if rng.one_in(4) { within(rng, SHARPNESS) } else { 1.5 + 94.5 * rng.unit() };
        let origin = parts(within_range(origin, ORIGIN));
        let direction = parts(within_range(direction, NORMAL));
        let ray = [&origin[..], &direction, &[tmin, tmax]].concat();
        [(Call::Trace, words::bits(&ray)), (Call::SoftShadow, words::bits(&[&ray[..], &[k]].concat()))]
    }
}

fn parts(v: Vec3) -> [f32; 3] {
    [v.x, v.y, v.z]
}
