//! Trees that keep the rules, of any form: what may be offered besides what is built.

use super::table::{Bounds, Node, Tables};
use crate::plan::layout::ORDER_WORDS;
use crate::rng::Rng;
use glam::Vec3;

/// How the objects of a node are shared out.
#[derive(Clone, Copy, Debug)]
pub enum Form {
    /// Anywhere, down to leaves of up to so many.
    Random(usize),
    /// One object goes to a leaf and the rest on, down to a leaf of all that are left at a depth.
    /// The rest goes left, right, or now this way and now that.
    Chain(usize, Lean),
}

#[derive(Clone, Copy, Debug)]
pub enum Lean {
    Left,
    Right,
    Both,
}

/// How far boxes stand off from what they must hold.
#[derive(Clone, Copy, Debug)]
pub enum Slack {
    None,
    /// One float further, here and there.
    Ulp,
    /// Up to so much.
    Some(f32),
    /// As far as floats go.
    All,
}

/// One leaf that holds any so many objects, in order.
pub fn wide_leaf(objects: u32) -> Tables {
    let leaf = Node { bounds: EVERYWHERE, start: 0, count: objects, right: 0 };
    let order: Vec<u32> = (0..ORDER_WORDS as u32).collect();
    Tables::new(&[leaf], &order)
}

const EVERYWHERE: Bounds = Bounds { lo: Vec3::splat(f32::MIN), hi: Vec3::splat(f32::MAX) };

/// A tree of that form over objects with these boxes, in an order of its own.
pub fn tree(rng: &mut Rng, boxes: &[Bounds], form: Form, slack: Slack) -> Tables {
    let mut order: Vec<u32> = (0..boxes.len() as u32).collect();
    shuffle(rng, &mut order);
    let mut making = Making { rng, boxes, order: &order, form, slack, nodes: Vec::new() };
    if !boxes.is_empty() {
        making.grow(0, boxes.len(), 0);
    }
    let nodes = making.nodes;
    Tables::new(&nodes, &order)
}

fn shuffle(rng: &mut Rng, order: &mut [u32]) {
    // Some orders stay as they are.
    if rng.one_in(4) {
        return;
    }
    for i in (1..order.len()).rev() {
        order.swap(i, rng.below(i + 1));
    }
}

struct Making<'a> {
    rng: &'a mut Rng,
    boxes: &'a [Bounds],
    order: &'a [u32],
    form: Form,
    slack: Slack,
    nodes: Vec<Node>,
}

impl Making<'_> {
    /// Adds the subtree of a part of the order, and gives its box.
    fn grow(&mut self, start: usize, count: usize, depth: usize) -> Bounds {
        let place = self.nodes.len();
        let mut node = Node { bounds: EVERYWHERE, start: start as u32, count: count as u32, right: 0 };
        self.nodes.push(node);
        let mut held: Vec<Bounds> = Vec::new();
        if let Some(left) = self.split(count, depth) {
            held.push(self.grow(start, left, depth + 1));
            (node.start, node.count, node.right) = (0, 0, self.nodes.len() as u32);
            held.push(self.grow(start + left, count - left, depth + 1));
        } else {
            let part = &self.order[start..start + count];
            held.extend(part.iter().map(|&object| self.boxes[object as usize]));
        }
        node.bounds = self.around(&held);
        self.nodes[place] = node;
        node.bounds
    }

    /// How many objects go left; none where the node is to be a leaf.
    fn split(&mut self, count: usize, depth: usize) -> Option<usize> {
        if count < 2 {
            return None;
        }
        match self.form {
            Form::Random(most) if count <= 1 + self.rng.below(most) => None,
            Form::Random(_) => Some(1 + self.rng.below(count - 1)),
            Form::Chain(depth_of_last, _) if depth >= depth_of_last => None,
            Form::Chain(_, lean) => {
                let left = match lean {
                    Lean::Left => true,
                    Lean::Right => false,
                    Lean::Both => self.rng.one_in(2),
                };
                Some(if left { count - 1 } else { 1 })
            }
        }
    }

    fn around(&mut self, held: &[Bounds]) -> Bounds {
        let mut around = held[0];
        for bounds in held {
            around.lo = around.lo.min(bounds.lo);
            around.hi = around.hi.max(bounds.hi);
        }
        Bounds { lo: -self.further(-around.lo), hi: self.further(around.hi) }
    }

    fn further(&mut self, corner: Vec3) -> Vec3 {
        let mut further = |x: f32| match self.slack {
            Slack::None => x,
            Slack::Ulp if self.rng.one_in(3) => x.next_up(),
            Slack::Ulp => x,
            Slack::Some(most) => x.max(x + most * self.rng.unit()),
            Slack::All => f32::MAX,
        };
        let [x, y, z] = [corner.x, corner.y, corner.z].map(&mut further);
        Vec3::new(x, y, z).min(EVERYWHERE.hi)
    }
}
