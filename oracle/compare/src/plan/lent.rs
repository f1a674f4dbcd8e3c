//! What a call is lent, beside what it must be after the call.

use super::layout::*;
use super::model::Plan;
use crate::call::{Call, OUT_BYTES};
use crate::tree::make;
use crate::tree::table::Tables;
use crate::words;

/// Bytes about a table, and what they hold: a byte written there by mistake is seen.
const ABOUT: usize = 128;
const MARK: u8 = 0xa5;

pub struct Table {
    lent: Vec<u8>,
    must: Vec<u8>,
    first: usize,
    len: usize,
    /// The words of `must` that differ from what was lent, with what they were.
    changes: Vec<(usize, u32)>,
}

impl Table {
    /// A table of a full size of bytes, all of them the mark, `shift` bytes off an alignment.
    fn new(full: usize, shift: usize) -> Table {
        let bytes = vec![MARK; full + 2 * ABOUT];
        Table { must: bytes.clone(), lent: bytes, first: ABOUT / 2 + shift % 8, len: full, changes: Vec::new() }
    }

    pub fn len(&self) -> usize {
        self.len
    }

    /// Shortens or lengthens what is lent. The bytes past it stay where they are, so that a call
    /// which reads past the end finds what it looks for.
    pub fn resize(&mut self, len: usize) {
        assert!(self.first + len <= self.lent.len());
        self.len = len;
    }

    pub fn bytes(&self) -> &[u8] {
        &self.lent[self.first..self.first + self.len]
    }

    pub fn bytes_mut(&mut self) -> &mut [u8] {
        &mut self.lent[self.first..self.first + self.len]
    }

    pub fn word(&self, i: usize) -> u32 {
        words::word(&self.lent[self.first..], i)
    }

    /// Words to be lent, from a place on, also past the length.
    pub fn put(&mut self, i: usize, words: &[u32]) {
        for bytes in [&mut self.lent, &mut self.must] {
            words::put(&mut bytes[self.first + 4 * i..], words);
        }
    }

    /// Every byte, those about the table too, from a `from` that was lent in the same way.
    pub fn copy(&mut self, from: &Table) {
        self.lent.copy_from_slice(&from.lent);
        self.must.copy_from_slice(&from.must);
        (self.first, self.len) = (from.first, from.len);
    }

    pub fn fill(&mut self, byte: impl Fn(usize) -> u8) {
        for bytes in [&mut self.lent, &mut self.must] {
            for (i, place) in bytes.iter_mut().enumerate() {
                *place = byte(i);
            }
        }
    }

    pub fn mark(&mut self) {
        self.lent.fill(MARK);
        self.must.fill(MARK);
    }

    /// A new call: what it must change is told from here on.
    pub fn begin(&mut self) {
        self.changes.clear();
    }

    pub fn must_put(&mut self, i: usize, words: &[u32]) {
        let must = &mut self.must[self.first..];
        for (i, &word) in (i..).zip(words) {
            self.changes.push((i, words::word(must, i)));
            words::put(&mut must[4 * i..4 * i + 4], &[word]);
        }
    }

    /// The same from the first word on, for a table of which `before` is not asked.
    pub fn must_begin_with(&mut self, words: &[u32]) {
        words::put(&mut self.must[self.first..][..4 * words.len()], words);
    }

    pub fn must_word(&self, i: usize) -> u32 {
        words::word(&self.must[self.first..], i)
    }

    /// The first byte that is not as it must be, from the table's first.
    pub fn wrong(&self) -> Option<isize> {
        if self.lent == self.must {
            return None;
        }
        let mut pairs = self.lent.iter().zip(&self.must);
        let at = pairs.position(|(lent, must)| lent != must).unwrap();
        Some(at as isize - self.first as isize)
    }

    /// The whole words as they were before the call.
    pub fn before(&self) -> Vec<u32> {
        let mut words = words::all(&self.must[self.first..self.first + self.len]);
        for &(i, word) in self.changes.iter().rev() {
            if i < words.len() {
                words[i] = word;
            }
        }
        words
    }
}

/// One of the tables that are lent.
#[derive(Clone, Copy, PartialEq)]
pub enum Which {
    Plan,
    Nodes,
    Order,
    OfferedNodes,
    OfferedOrder,
    Args,
    Out,
}

pub struct Lent {
    pub plan: Table,
    pub nodes: Table,
    pub order: Table,
    pub offered_nodes: Table,
    pub offered_order: Table,
    pub tree: u32,
    pub args: Table,
    pub out: Table,
}

impl Lent {
    /// A plan and no tree, neither standing nor offered, all tables of full size; their alignment
    /// follows `shift`.
    pub fn new(plan: &Plan, shift: usize) -> Lent {
        let mut lent = Lent {
            plan: Table::new(PLAN_BYTES, shift),
            nodes: Table::new(NODES_BYTES, shift / 2),
            order: Table::new(ORDER_BYTES, shift / 3),
            offered_nodes: Table::new(NODES_BYTES, shift / 4),
            offered_order: Table::new(ORDER_BYTES, shift / 6),
            tree: 0,
            args: Table::new(4 * ROW * (MOST_CUTTERS + 2), shift / 5),
            out: Table::new(OUT_BYTES, shift / 7),
        };
        lent.plan.put(0, &plan.table());
        for nodes in [&mut lent.nodes, &mut lent.offered_nodes] {
            nodes.put(0, &[0; NODES_WORDS]);
        }
        for order in [&mut lent.order, &mut lent.offered_order] {
            order.put(0, &[0; ORDER_WORDS]);
        }
        lent.args(&[]);
        lent
    }

    pub fn table(&mut self, which: Which) -> &mut Table {
        match which {
            Which::Plan => &mut self.plan,
            Which::Nodes => &mut self.nodes,
            Which::Order => &mut self.order,
            Which::OfferedNodes => &mut self.offered_nodes,
            Which::OfferedOrder => &mut self.offered_order,
            Which::Args => &mut self.args,
            Which::Out => &mut self.out,
        }
    }

    pub fn stand(&mut self, tree: &Tables) {
        self.nodes.put(0, &tree.nodes);
        self.order.put(0, &tree.order);
    }

    pub fn offer(&mut self, tree: &Tables) {
        self.offered_nodes.put(0, &tree.nodes);
        self.offered_order.put(0, &tree.order);
    }

    /// Lets a tree stand, and offers it, that is right for as many objects as the plan says it
    /// has, whatever they are: so one can change the plan and not its tree.
    pub fn any_tree(&mut self) {
        let tree = make::wide_leaf(self.plan.word(List::Objects as usize));
        self.stand(&tree);
        self.offer(&tree);
    }

    pub fn copy(&mut self, from: &Lent) {
        self.plan.copy(&from.plan);
        self.nodes.copy(&from.nodes);
        self.order.copy(&from.order);
        self.offered_nodes.copy(&from.offered_nodes);
        self.offered_order.copy(&from.offered_order);
        self.args.copy(&from.args);
        self.out.copy(&from.out);
        self.tree = from.tree;
    }

    /// Whether the call looks at `nodes` and `order`.
    pub fn looks_at_tree(&self, call: Call) -> bool {
        call.writes_tree() || (call.asks() && self.tree == 1)
    }

    /// Lends these `args`, with nothing but the mark past them.
    pub fn args(&mut self, words: &[u32]) {
        self.args.mark();
        self.args.put(0, words);
        self.args.resize(4 * words.len());
    }
}
