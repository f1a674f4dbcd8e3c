//! The rooms that calls ask in, as both sides have them, and what is asked there.

use crate::call::Call;
use crate::light::room;
use crate::plan::bench::plan;
use crate::plan::layout::{OBJECTS, ROW};
use crate::plan::model::Plan;
use crate::plan::{source, Lent};
use crate::rng::Rng;
use crate::tree::source::tables;
use glam::Vec3;
use interflect::bvh::Bvh;
use interflect::scene::Scene;
use std::array::from_fn;

/// The args of a call, with zeros past them.
pub type Args = [u32; ROW];

#[derive(Clone, Copy)]
pub enum Inputs {
    /// So many, drawn at random.
    Drawn(usize),
    /// Points side by side.
    Survey,
}

/// Points to a side of a survey.
const SIDE: usize = 64;

/// A height from which all panels are seen from behind.
pub const ABOVE_ALL: f32 = 50.0;

const UP: Vec3 = Vec3::Y;
const ALBEDO: [f32; 3] = [0.7, 0.6, 0.5];

pub struct Room {
    pub name: String,
    pub lent: Lent,
    pub scene: Scene,
    /// The corners of what is asked.
    low: Vec3,
    high: Vec3,
    /// Heights of places, where not any will do, and of a survey.
    heights: &'static [f32],
    survey: f32,
}

pub fn all() -> Vec<Room> {
    let mut rooms = Vec::from([4, 16, 64, OBJECTS.records].map(|objects| pieces(objects, 0)));
    rooms.extend([pieces(OBJECTS.records, 4), classroom(), desks("classroom, half cut", &room::cut_classroom())]);
    rooms
}

pub fn classroom() -> Room {
    desks("classroom", &room::classroom())
}

/// Pieces of all kinds, each with so many cutters, beneath four panels.
fn pieces(objects: usize, cutters: usize) -> Room {
    let mut plan = plan(&mut Rng::new(8), objects, cutters);
    plan.lights = [[-5.0, -5.0], [-5.0, 5.0], [5.0, -5.0], [5.0, 5.0]]
        .map(|[x, z]| room::hanging([x, 16.0, z], [3.0, 3.0]))
        .to_vec();
    let name = match cutters {
        0 => format!("{objects} pieces"),
        _ => format!("{objects} pieces of {cutters} cutters"),
    };
    Room::new(name, &plan, [Vec3::splat(-10.0), Vec3::splat(10.0)], &[], 10.0)
}

/// Places are on a desk, on the floor or beneath a desk.
fn desks(name: &str, plan: &Plan) -> Room {
    let corners = [Vec3::new(-5.5, 0.0, -4.5), Vec3::new(5.5, 3.0, 4.5)];
    Room::new(name.to_string(), plan, corners, &[0.745, 0.745, 0.001, 0.3], 0.76)
}

impl Room {
    /// With the tree that the source builds.
    fn new(name: String, plan: &Plan, [low, high]: [Vec3; 2], heights: &'static [f32], survey: f32) -> Room {
        let mut scene = source::scene(plan);
        scene.bvh = Bvh::build(&scene.objects);
        let mut lent = Lent::new(plan, 0);
        lent.stand(&tables(&scene.bvh));
        Room { name, lent, scene, low, high, heights, survey }
    }

    /// Lets both sides ask by the tree (1) or by the list (0).
    pub fn by(&mut self, tree: u32) {
        self.lent.tree = tree;
        self.scene.use_bvh = tree == 1;
    }

    pub fn inputs(&self, call: Call, inputs: Inputs) -> Vec<Args> {
        let mut rng = Rng::new(9);
        match inputs {
            Inputs::Drawn(many) => (0..many).map(|_| self.args(call, &mut rng)).collect(),
            Inputs::Survey => self.survey(),
        }
    }

    /// Queries from anywhere without a bound; rays from a place to anywhere, shadows to a panel; light on a place whose
    /// normal is up, seen from above.
    fn args(&self, call: Call, rng: &mut Rng) -> Args {
        if call == Call::Query {
            return args(&[self.point(rng)], &[f32::MAX, 0.0]);
        }
        let place = self.place(rng);
        match call {
            Call::Trace => args(&[place, (self.point(rng) - place).normalize()], &[1e-3, 60.0]),
            Call::SoftShadow => {
                let to = self.scene.lights[rng.below(self.scene.lights.len())].center() - place;
                args(&[place, to.normalize()], &[0.015, to.length() - 0.6, 6.0])
            }
            Call::DirectDiffuse => args(&[place, UP], &ALBEDO),
            Call::Direct => {
                let view = Vec3::new(rng.unit() - 0.5, 0.6, rng.unit() - 0.5).normalize();
                args(&[place, UP, view], &[&ALBEDO[..], &[0.4, 0.1]].concat())
            }
            _ => call.stray(),
        }
    }

    fn point(&self, rng: &mut Rng) -> Vec3 {
        self.at([0; 3].map(|_| rng.unit()))
    }

    /// A point that lies in no piece.
    pub fn place(&self, rng: &mut Rng) -> Vec3 {
        loop {
            let mut place = self.point(rng);
            if !self.heights.is_empty() {
                place.y = rng.pick(self.heights);
            }
            if self.scene.dist(place) > 5e-4 {
                return place;
            }
        }
    }

    fn survey(&self) -> Vec<Args> {
        let along = |i: usize| (i as f32 + 0.5) / SIDE as f32;
        let point = |i: usize| Vec3 { y: self.survey, ..self.at([along(i % SIDE), 0.0, along(i / SIDE)]) };
        (0..SIDE * SIDE).map(|i| args(&[point(i), UP], &ALBEDO)).collect()
    }

    /// The point so far from the low corner to the high one, along each axis.
    fn at(&self, along: [f32; 3]) -> Vec3 {
        let [x, y, z] = from_fn(|i| self.low[i] + along[i] * (self.high[i] - self.low[i]));
        Vec3::new(x, y, z)
    }
}

fn args(vectors: &[Vec3], numbers: &[f32]) -> Args {
    let floats = vectors.iter().flat_map(|v| [v.x, v.y, v.z]).chain(numbers.iter().copied());
    let mut args = [0; ROW];
    for (place, float) in args.iter_mut().zip(floats) {
        *place = float.to_bits();
    }
    args
}
