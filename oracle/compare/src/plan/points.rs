//! Random points about a plan, from each of which both calls ask, by the list and by a tree.

use super::check::check_in;
use super::draw;
use super::judge::BOUND;
use super::lent::Lent;
use super::model::Plan;
use super::source;
use crate::call::Call;
use crate::draw::within;
use crate::judge::DONE;
use crate::rng::Rng;
use crate::source::vec3;
use glam::Vec3;
use interflect::scene::{DistHit, Scene};

/// A plan in the source's form and as it is lent.
pub struct Asking<'a> {
    plan: &'a Plan,
    pub scene: Scene,
    pub lent: Lent,
}

/// A point that was asked from.
pub struct Asked {
    pub point: Vec3,
    /// The nearest object, by the list.
    pub near: DistHit,
    /// The bound of the query.
    pub bound: f32,
    /// What the query answered, by the list and by the tree as far as they were asked.
    pub answers: Vec<[u32; 4]>,
}

impl Asking<'_> {
    pub fn new(plan: &Plan, shift: usize) -> Asking<'_> {
        Asking { plan, scene: source::scene(plan), lent: Lent::new(plan, shift) }
    }

    /// Lets anything stand where a tree would.
    pub fn junk(&mut self) {
        self.lent.nodes.fill(|i| i as u8);
        self.lent.order.fill(|i| !i as u8);
    }

    /// Asks from so many points with each of these words `tree`; where one is 1, the scene has the
    /// tree that stands. `take` is told each.
    pub fn ask(
        &mut self,
        rng: &mut Rng,
        points: usize,
        trees: &[u32],
        mut take: impl FnMut(&Scene, Asked),
    ) -> Result<(), String> {
        for _ in 0..points {
            let words = draw::point(rng, self.plan);
            let point = vec3(&words);
            self.scene.use_bvh = false;
            let near = source::query(&self.scene, point, f32::MAX, 0);
            let bound = bound(rng, near.d);
            let args = [&words[..], &[bound.to_bits(), rng.word()]].concat();
            let mut answers = Vec::new();
            for &tree in trees {
                self.scene.use_bvh = tree == 1;
                self.lent.tree = tree;
                for call in [Call::DistMat, Call::Query] {
                    self.lent.args(&args[..call.args_words()]);
                    let sent = check_in(&self.scene, call, &mut self.lent)?;
                    assert_eq!(sent, DONE, "plans and points are drawn sound");
                }
                answers.push([0, 1, 2, 3].map(|i| self.lent.out.word(i)));
            }
            let asked = Asked { point, near, bound, answers };
            take(&self.scene, asked);
        }
        Ok(())
    }
}

/// A bound: none, anything, below everything, or about the distance itself.
pub fn bound(rng: &mut Rng, distance: f32) -> f32 {
    match rng.below(12) {
        0..=3 => f32::MAX,
        4 => within(rng, BOUND),
        5 => -f32::MAX,
        6 => rng.pick(&[0.0, -0.0, -1.0, 1.0]),
        7 => distance,
        8 => distance.next_down().max(-f32::MAX),
        9 => distance.next_up().min(f32::MAX),
        10 => distance + rng.unit() * 10.0,
        _ => distance - rng.unit() * 10.0,
    }
}
