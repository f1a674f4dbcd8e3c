//! The source's own trees: what it builds, as words, and a tree of words for it to search.

use super::table::{Bounds, Node, Tables};
use glam::Vec3;
use interflect::bvh::{self, Bvh};
use interflect::sdf::Object;

/// An object's box is `bounds()` widened by blend.
pub fn boxes(objects: &[Object]) -> Vec<Bounds> {
    let widened = |object: &Object| {
        let (lo, hi) = object.prim.bounds().expect("an object is no plane");
        let blend = Vec3::splat(object.blend);
        Bounds { lo: lo - blend, hi: hi + blend }
    };
    objects.iter().map(widened).collect()
}

pub fn build(objects: &[Object]) -> Tables {
    tables(&Bvh::build(objects))
}

pub fn tables(tree: &Bvh) -> Tables {
    let node = |node: &bvh::Node| Node {
        bounds: Bounds { lo: node.lo, hi: node.hi },
        start: node.start,
        count: node.count,
        right: node.right,
    };
    let nodes: Vec<Node> = tree.nodes.iter().map(node).collect();
    Tables::new(&nodes, &tree.order)
}

/// The source's form of a tree of so many nodes and objects.
pub fn tree(tables: &Tables, nodes: usize, objects: usize) -> Bvh {
    let node = |place: usize| {
        let node = tables.node(place);
        bvh::Node { lo: node.bounds.lo, hi: node.bounds.hi, start: node.start, count: node.count, right: node.right }
    };
    Bvh { nodes: (0..nodes).map(node).collect(), order: tables.order[..objects].to_vec(), empty: objects == 0 }
}
