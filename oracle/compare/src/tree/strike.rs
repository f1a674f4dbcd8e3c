//! A good tree with something changed, and the number that this must get where that is plain.

use super::shape::{shape, Placed};
use super::table::{Bounds, Tables, COUNT, HI, LO, RIGHT, START};
use crate::chosen::NOT_FINITE;
use crate::plan::layout::{NODES_WORDS, NODE_WORDS, ORDER_WORDS};
use crate::rng::Rng;

/// What a change does to the number that the tree had.
#[derive(Clone, Copy, Debug, PartialEq)]
pub enum Does {
    Nothing,
    Breaks,
    /// That is for the judge to say.
    Unknown,
}

/// A good tree of objects with these boxes, of which there is at least one.
pub struct Struck<'a> {
    tables: &'a mut Tables,
    tree: Vec<Placed>,
    boxes: &'a [Bounds],
}

type Strike = fn(&mut Struck, &mut Rng) -> Does;

const STRIKES: [Strike; 14] = [
    anything,
    anything,
    not_finite,
    count_off,
    right_off,
    start_off,
    repeated,
    absent,
    swapped,
    shrunk,
    tight,
    out_of_parent,
    to_leaf,
    past,
];

pub fn strike(rng: &mut Rng, tables: &mut Tables, boxes: &[Bounds]) -> Does {
    let tree = shape(tables).expect("a good tree is struck");
    let strike = rng.pick(&STRIKES);
    let mut struck = Struck { tables, tree, boxes };
    strike(&mut struck, rng)
}

impl Struck<'_> {
    fn place(&self, rng: &mut Rng) -> usize {
        rng.below(self.tree.len())
    }

    /// A word of a node.
    fn word(&mut self, place: usize, word: usize) -> &mut u32 {
        &mut self.tables.nodes[place * NODE_WORDS + word]
    }

    fn end_of_subtree(&self, place: usize) -> usize {
        let deeper = |placed: &&Placed| placed.depth > self.tree[place].depth;
        place + 1 + self.tree[place + 1..].iter().take_while(deeper).count()
    }

    /// The boxes that a node must hold.
    fn held(&self, place: usize) -> Vec<Bounds> {
        let Placed { node, children, .. } = &self.tree[place];
        if !children.is_empty() {
            let bounds = |&child: &usize| self.tree[child].node.bounds;
            return children.iter().map(bounds).collect();
        }
        let part = &self.tables.order[node.start as usize..][..node.count as usize];
        let own = |&object: &u32| self.boxes[object as usize];
        part.iter().map(own).collect()
    }

    /// A corner that just holds what it must, along one axis: low ones with their sign changed,
    /// so that outward is always up.
    fn least(&self, place: usize, axis: usize, low: bool) -> f32 {
        let corner = |bounds: Bounds| outward(bounds, axis, low);
        let corners = self.held(place).into_iter().map(corner);
        corners.fold(f32::MIN, f32::max)
    }

    fn put_corner(&mut self, place: usize, axis: usize, low: bool, outward: f32) {
        let (at, x) = if low { (LO, -outward) } else { (HI, outward) };
        *self.word(place, at + axis) = x.to_bits();
    }
}

fn outward(bounds: Bounds, axis: usize, low: bool) -> f32 {
    if low {
        -bounds.lo[axis]
    } else {
        bounds.hi[axis]
    }
}

/// Any word of the tree or of the order, made anything.
fn anything(struck: &mut Struck, rng: &mut Rng) -> Does {
    let place = struck.place(rng);
    let objects = struck.boxes.len();
    let place = match rng.one_in(5) {
        true => &mut struck.tables.order[rng.below(objects)],
        false => struck.word(place, rng.below(NODE_WORDS)),
    };
    let old = *place;
    let floats = [0.0, -0.0, f32::MAX, f32::MIN, 1.0, -1.0];
    *place = match rng.below(8) {
        0 => rng.word(),
        1 => rng.below(objects + 2) as u32,
        2 => old.wrapping_add(1),
        3 => old.wrapping_sub(1),
        4..=5 => old ^ 1 << rng.below(32),
        6 => rng.pick(&floats).to_bits(),
        _ => 0,
    };
    Does::Unknown
}

fn not_finite(struck: &mut Struck, rng: &mut Rng) -> Does {
    let place = struck.place(rng);
    *struck.word(place, rng.below(START)) = rng.pick(&NOT_FINITE);
    Does::Breaks
}

/// A leaf has one more or one less, or an interior node has some.
fn count_off(struck: &mut Struck, rng: &mut Rng) -> Does {
    let place = struck.place(rng);
    let leaf = struck.tree[place].leaf();
    let count = struck.word(place, COUNT);
    *count = if !leaf || rng.one_in(2) { *count + 1 } else { *count - 1 };
    Does::Breaks
}

fn right_off(struck: &mut Struck, rng: &mut Rng) -> Does {
    let place = struck.place(rng);
    let right = struck.word(place, RIGHT);
    *right = one_off(rng, *right);
    Does::Breaks
}

fn start_off(struck: &mut Struck, rng: &mut Rng) -> Does {
    let place = struck.place(rng);
    let start = struck.word(place, START);
    *start = one_off(rng, *start);
    Does::Breaks
}

fn one_off(rng: &mut Rng, word: u32) -> u32 {
    match rng.below(4) {
        0 => word.wrapping_sub(1),
        1 => word ^ 1 << rng.below(32),
        _ => word + 1,
    }
}

/// An object stands twice in the order, and another not at all.
fn repeated(struck: &mut Struck, rng: &mut Rng) -> Does {
    let objects = struck.boxes.len();
    let [from, to] = [rng.below(objects), rng.below(objects)];
    struck.tables.order[to] = struck.tables.order[from];
    if from == to {
        Does::Nothing
    } else {
        Does::Breaks
    }
}

/// There is no such object.
fn absent(struck: &mut Struck, rng: &mut Rng) -> Does {
    let objects = struck.boxes.len();
    let high = objects as u32;
    struck.tables.order[rng.below(objects)] = rng.pick(&[high, high + 1, 1 << 31, u32::MAX]);
    Does::Breaks
}

fn swapped(struck: &mut Struck, rng: &mut Rng) -> Does {
    let objects = struck.boxes.len();
    struck.tables.order.swap(rng.below(objects), rng.below(objects));
    Does::Unknown
}

/// A corner one float short of what its node must hold.
fn shrunk(struck: &mut Struck, rng: &mut Rng) -> Does {
    let place = struck.place(rng);
    let (axis, low) = (rng.below(3), rng.one_in(2));
    let least = struck.least(place, axis, low);
    struck.put_corner(place, axis, low, least.next_down());
    Does::Breaks
}

/// A corner as close as may be.
fn tight(struck: &mut Struck, rng: &mut Rng) -> Does {
    let place = struck.place(rng);
    let (axis, low) = (rng.below(3), rng.one_in(2));
    let least = struck.least(place, axis, low);
    struck.put_corner(place, axis, low, least);
    Does::Nothing
}

/// A corner one float out of the parent's box.
fn out_of_parent(struck: &mut Struck, rng: &mut Rng) -> Does {
    let place = struck.place(rng);
    let (axis, low) = (rng.below(3), rng.one_in(2));
    let mut parents = struck.tree.iter().map(|placed| &placed.children);
    let parent = parents.position(|children| children.contains(&place));
    let Some(parent) = parent else {
        return Does::Nothing;
    };
    let most = outward(struck.tree[parent].node.bounds, axis, low);
    struck.put_corner(place, axis, low, most.next_up());
    Does::Breaks
}

/// A node becomes a leaf of all its objects. The nodes below it stay, and are past the tree's end
/// only where its subtree comes last.
fn to_leaf(struck: &mut Struck, rng: &mut Rng) -> Does {
    let place = struck.place(rng);
    if struck.tree[place].leaf() {
        return Does::Nothing;
    }
    let end = struck.end_of_subtree(place);
    let leaves = struck.tree[place..end].iter().filter(|node| node.leaf());
    let leaves: Vec<(u32, u32)> = leaves.map(|placed| (placed.node.start, placed.node.count)).collect();
    *struck.word(place, START) = leaves[0].0;
    *struck.word(place, COUNT) = leaves.iter().map(|leaf| leaf.1).sum();
    *struck.word(place, RIGHT) = 0;
    if end == struck.tree.len() {
        Does::Unknown
    } else {
        Does::Breaks
    }
}

/// Words past the tree and past the order hold anything.
fn past(struck: &mut Struck, rng: &mut Rng) -> Does {
    let (nodes, objects) = (struck.tree.len() * NODE_WORDS, struck.boxes.len());
    for _ in 0..1 + rng.below(40) {
        if nodes < NODES_WORDS {
            struck.tables.nodes[nodes + rng.below(NODES_WORDS - nodes)] = rng.word();
        }
        if objects < ORDER_WORDS {
            struck.tables.order[objects + rng.below(ORDER_WORDS - objects)] = rng.word();
        }
    }
    Does::Nothing
}
