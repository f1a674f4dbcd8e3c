//! Tables of all lengths about their full size, and longer ones: what a table of that length
//! gets, whether its words are sound or not, is written out here, apart from the judge.

use super::check::expect;
use super::layout::*;
use super::lent::{Lent, Which};
use super::sound;
use crate::call::{Call, OUT_BYTES};
use crate::chosen::NAN;
use crate::judge::{BAD_WORD, DONE, NO_ROOM};

/// Bytes past a full size.
const PAST: usize = 72;

pub fn run() -> Result<String, String> {
    let mut count = 0;
    for (call, tree) in Call::with_trees() {
        for broken in Broken::ALL {
            let case = Case { call, tree, broken };
            count += case.whole_tables()?;
            count += case.args_and_out()?;
        }
    }
    Ok(format!("{count} cases"))
}

/// Where a word is broken that gets 1 if it is judged.
#[derive(Clone, Copy, PartialEq)]
enum Broken {
    Nowhere,
    Plan,
    /// A light in the plan.
    Light,
    Args,
    /// The last cutter of a piece that is to enter.
    LastCutter,
}

impl Broken {
    const ALL: [Broken; 5] = [Broken::Nowhere, Broken::Plan, Broken::Light, Broken::Args, Broken::LastCutter];
}

#[derive(Clone, Copy)]
struct Case {
    call: Call,
    tree: u32,
    broken: Broken,
}

/// Lengths about a full size, and small ones. The plan's sections begin among them.
fn lengths(full: usize) -> Vec<usize> {
    let mut lengths: Vec<usize> = (0..=8).chain(60..=68).collect();
    lengths.extend(SECTIONS.map(|section| 4 * section.first));
    lengths.extend([full / 2, full - 64, full - 8]);
    lengths.retain(|&len| len < full);
    lengths.extend(full - 5..=full + 5);
    lengths.extend([full + 64, full + PAST]);
    lengths
}

impl Case {
    fn lend(self) -> Lent {
        let mut lent = Lent::new(&sound::plan(), 0);
        lent.any_tree();
        lent.tree = self.tree;
        lent.args(&sound::args(self.call));
        match self.broken {
            Broken::Nowhere => {}
            // The blend of the last object.
            Broken::Plan => lent.plan.put(OBJECTS.at(2) + BLEND, &[NAN]),
            // The last word of its emission.
            Broken::Light => lent.plan.put(LIGHTS.at(0) + LIGHT_WORDS - 1, &[NAN]),
            Broken::Args => lent.args.put(usize::from(self.piece()), &[NAN]),
            Broken::LastCutter if self.piece() => lent.args.put(2 * ROW + 1, &[NAN]),
            Broken::LastCutter => {}
        }
        lent
    }

    fn piece(self) -> bool {
        self.call.args_words() == ROW
    }

    /// Whether the call tests what is broken in the plan.
    fn tested(self) -> bool {
        match self.broken {
            Broken::Light => matches!(self.call, Call::Direct | Call::DirectDiffuse),
            _ => !self.call.tests().is_empty(),
        }
    }

    /// Tables that may be lent, their full sizes, and whether the call looks at them at all.
    fn tables(self) -> [(Which, usize, bool); 5] {
        let written = matches!(self.call, Call::AddObject | Call::Build | Call::Offer);
        let tree = written || self.tree == 1;
        let offered = self.call == Call::Offer;
        [
            (Which::Plan, PLAN_BYTES, true),
            (Which::Nodes, NODES_BYTES, tree),
            (Which::Order, ORDER_BYTES, tree),
            (Which::OfferedNodes, NODES_BYTES, offered),
            (Which::OfferedOrder, ORDER_BYTES, offered),
        ]
    }

    fn whole_tables(self) -> Result<usize, String> {
        let mut count = 0;
        for (table, full, looked_at) in self.tables() {
            for len in lengths(full) {
                let mut lent = self.lend();
                lent.table(table).resize(len);
                let short = looked_at && len < full;
                let plan_short = short && table == Which::Plan;
                let judged = match self.broken {
                    Broken::Nowhere => false,
                    Broken::Plan | Broken::Light => !plan_short && self.tested(),
                    Broken::Args => self.call.args_words() > 0,
                    Broken::LastCutter => self.piece(),
                };
                expect(self.call, &mut lent, number(judged, short))?;
                count += 1;
            }
        }
        Ok(count + self.all_at_once()?)
    }

    /// All tables longer than their full size, each in its own way.
    fn all_at_once(self) -> Result<usize, String> {
        if self.broken != Broken::Nowhere {
            return Ok(0);
        }
        let cases = [(4, 0, 64), (0, 1, PAST), (PAST, PAST, PAST), (1, 2, 3)];
        for (plan, nodes, order) in cases {
            let mut lent = self.lend();
            lent.plan.resize(PLAN_BYTES + plan);
            lent.nodes.resize(NODES_BYTES + nodes);
            lent.order.resize(ORDER_BYTES + order);
            lent.offered_nodes.resize(NODES_BYTES + order);
            lent.offered_order.resize(ORDER_BYTES + plan);
            lent.out.resize(OUT_BYTES + nodes);
            expect(self.call, &mut lent, DONE)?;
        }
        Ok(cases.len())
    }

    fn args_and_out(self) -> Result<usize, String> {
        // A piece has two cutters here.
        let row = 4 * self.call.args_words();
        let need = if self.piece() { 3 * row } else { row };
        let mut count = 0;
        let fresh = self.lend();
        let mut lent = self.lend();
        for args_len in 0..=need + 8 {
            // Every length of each, with few of the other.
            let out_lens = match need.abs_diff(args_len) {
                0 | 1 => (0..=OUT_BYTES + PAST).collect(),
                _ => vec![OUT_BYTES - 1, OUT_BYTES],
            };
            for out_len in out_lens {
                let judged = match self.broken {
                    Broken::Nowhere => false,
                    Broken::Plan | Broken::Light => self.tested(),
                    Broken::Args => row > 0 && args_len >= row,
                    Broken::LastCutter => self.piece() && args_len >= need,
                };
                let short = args_len < need || out_len < OUT_BYTES;
                lent.copy(&fresh);
                lent.args.resize(args_len);
                lent.out.resize(out_len);
                expect(self.call, &mut lent, number(judged, short))?;
                count += 1;
            }
        }
        Ok(count)
    }
}

fn number(bad_word: bool, short: bool) -> u32 {
    match (bad_word, short) {
        (true, _) => BAD_WORD,
        (_, true) => NO_ROOM,
        _ => DONE,
    }
}
