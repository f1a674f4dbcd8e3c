//! How nodes in pre-order hang together. Only the counts say it: a node of count 0 has two
//! children, any other none. What the other words must then be is for `rules`.

use super::table::{Node, Tables};
use crate::plan::layout::NODES;

/// A node at its place in the tree. Its children are places too: none, or left and right.
pub struct Placed {
    pub node: Node,
    pub depth: usize,
    pub children: Vec<usize>,
}

impl Placed {
    pub fn leaf(&self) -> bool {
        self.children.is_empty()
    }
}

/// The nodes up to where the root's subtree ends; none where the table ends before.
pub fn shape(tables: &Tables) -> Option<Vec<Placed>> {
    let mut placed: Vec<Placed> = Vec::new();
    // Parents that wait for a child, the one that comes next last; the root has no parent.
    let mut waiting: Vec<Option<usize>> = vec![None];
    while let Some(parent) = waiting.pop() {
        let place = placed.len();
        if place == NODES {
            return None;
        }
        let mut depth = 0;
        if let Some(parent) = parent {
            depth = placed[parent].depth + 1;
            placed[parent].children.push(place);
        }
        let node = tables.node(place);
        if node.count == 0 {
            waiting.extend([Some(place); 2]);
        }
        placed.push(Placed { node, depth, children: Vec::new() });
    }
    Some(placed)
}
