//! Document 01's tree rules, each by itself, over the words of the two tables.

use super::shape::{shape, Placed};
use super::table::{Bounds, Tables};
use crate::judge::{BAD_TREE, DONE, TOO_DEEP};
use glam::Vec3;

/// No node is deeper.
pub const DEEPEST: usize = 63;

/// What the rules say of a tree: the number that it gets when it is offered, and the number of its
/// nodes where that is not 6.
#[derive(Clone, Copy, Debug, PartialEq)]
pub struct Verdict {
    pub number: u32,
    pub nodes: usize,
}

/// Judges tables as the tree of objects with these boxes.
pub fn judge(tables: &Tables, boxes: &[Bounds]) -> Verdict {
    let bad = Verdict { number: BAD_TREE, nodes: 0 };
    if boxes.is_empty() {
        return Verdict { number: DONE, nodes: 0 };
    }
    let Some(tree) = shape(tables) else {
        return bad;
    };
    let order = &tables.order[..boxes.len()];
    let met = interiors(&tree)
        && leaves(&tree, boxes.len())
        && each_once(order)
        && corners(&tree)
        && children_within(&tree)
        && objects_within(&tree, order, boxes);
    if !met {
        return bad;
    }
    let deep = tree.iter().any(|placed| placed.depth > DEEPEST);
    Verdict { number: if deep { TOO_DEEP } else { DONE }, nodes: tree.len() }
}

/// An interior node has start 0, its left child at the next place and `right` at the first place
/// after the left subtree: where its right child lies.
fn interiors(tree: &[Placed]) -> bool {
    let mut places = tree.iter().enumerate().filter(|(_, placed)| !placed.leaf());
    places.all(|(place, placed)| {
        let right = placed.node.right as usize;
        placed.node.start == 0 && placed.children == [place + 1, right]
    })
}

/// A leaf has right 0 and starts where the leaf before it ended; the last ends with the objects.
fn leaves(tree: &[Placed], objects: usize) -> bool {
    // Wide enough for the sum of all counts there can be.
    let mut end: u64 = 0;
    for placed in tree.iter().filter(|placed| placed.leaf()) {
        if placed.node.right != 0 || u64::from(placed.node.start) != end {
            return false;
        }
        end += u64::from(placed.node.count);
    }
    end == objects as u64
}

fn each_once(order: &[u32]) -> bool {
    let mut sorted = order.to_vec();
    sorted.sort_unstable();
    sorted.into_iter().eq(0..order.len() as u32)
}

fn corners(tree: &[Placed]) -> bool {
    let finite = |v: Vec3| (0..3).all(|i| v[i].is_finite());
    let bounds = |placed: &Placed| placed.node.bounds;
    tree.iter().map(bounds).all(|bounds| finite(bounds.lo) && finite(bounds.hi))
}

fn children_within(tree: &[Placed]) -> bool {
    tree.iter().all(|placed| {
        let child = |&place: &usize| tree[place].node.bounds;
        let mut children = placed.children.iter().map(child);
        children.all(|child| within(child, placed.node.bounds))
    })
}

/// Asked where the leaves share out the order, so that their parts of it are there.
fn objects_within(tree: &[Placed], order: &[u32], boxes: &[Bounds]) -> bool {
    let mut leaves = tree.iter().filter(|placed| placed.leaf());
    leaves.all(|placed| {
        let node = placed.node;
        let part = &order[node.start as usize..][..node.count as usize];
        let mut boxes = part.iter().map(|&object| boxes[object as usize]);
        boxes.all(|own| within(own, node.bounds))
    })
}

/// Zeros of both signs are equal.
fn within(inner: Bounds, outer: Bounds) -> bool {
    (0..3).all(|i| outer.lo[i] <= inner.lo[i] && inner.hi[i] <= outer.hi[i])
}
