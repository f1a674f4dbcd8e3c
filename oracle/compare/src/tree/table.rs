//! A tree as the words of its two tables, and its nodes one by one.

use crate::plan::layout::{NODES, NODES_WORDS, NODE_WORDS, ORDER_WORDS};
use crate::source::vec3;
use crate::words;
use glam::Vec3;

/// Places in a node.
pub const LO: usize = 0;
pub const HI: usize = 3;
pub const START: usize = 6;
pub const COUNT: usize = 7;
pub const RIGHT: usize = 8;

#[derive(Clone, Copy, Debug)]
pub struct Bounds {
    pub lo: Vec3,
    pub hi: Vec3,
}

#[derive(Clone, Copy, Debug)]
pub struct Node {
    pub bounds: Bounds,
    pub start: u32,
    pub count: u32,
    pub right: u32,
}

/// All words of the tables `nodes` and `order`.
#[derive(Clone, Debug, PartialEq)]
pub struct Tables {
    pub nodes: Vec<u32>,
    pub order: Vec<u32>,
}

impl Node {
    fn words(&self) -> [u32; NODE_WORDS] {
        let mut words = [0; NODE_WORDS];
        for i in 0..3 {
            words[LO + i] = self.bounds.lo[i].to_bits();
            words[HI + i] = self.bounds.hi[i].to_bits();
        }
        words[START] = self.start;
        words[COUNT] = self.count;
        words[RIGHT] = self.right;
        words
    }
}

impl Tables {
    /// Zero words follow the nodes and the order.
    pub fn new(nodes: &[Node], order: &[u32]) -> Tables {
        let mut tables = Tables { nodes: nodes.iter().flat_map(Node::words).collect(), order: order.to_vec() };
        assert!(nodes.len() <= NODES && order.len() <= ORDER_WORDS);
        tables.nodes.resize(NODES_WORDS, 0);
        tables.order.resize(ORDER_WORDS, 0);
        tables
    }

    /// From lent tables that are of full size or longer.
    pub fn read(nodes: &[u8], order: &[u8]) -> Tables {
        Tables { nodes: words::all(&nodes[..4 * NODES_WORDS]), order: words::all(&order[..4 * ORDER_WORDS]) }
    }

    pub fn node(&self, place: usize) -> Node {
        let words = &self.nodes[place * NODE_WORDS..][..NODE_WORDS];
        let corner = |at: usize| vec3(&words[at..]);
        Node {
            bounds: Bounds { lo: corner(LO), hi: corner(HI) },
            start: words[START],
            count: words[COUNT],
            right: words[RIGHT],
        }
    }

    /// The nodes with all but so many of them made zero, and the order likewise: what an accepted
    /// offer leaves.
    pub fn cut(mut self, nodes: usize, objects: usize) -> Tables {
        self.nodes[nodes * NODE_WORDS..].fill(0);
        self.order[objects..].fill(0);
        self
    }
}
