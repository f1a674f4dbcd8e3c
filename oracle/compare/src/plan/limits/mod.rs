//! Each word at its limits and just past them, in `args` and in the plan, with the number that
//! it must get; words that are not read; flat capsules and lights; document 01's P9 and P10.

mod args;
pub mod flat;
mod lights;
mod pieces;
mod whole;

use super::check::expect;
use super::layout::*;
use super::lent::Lent;
use super::model::{Piece, Plan, Prim};
use super::sound;
use crate::call::Call;
use crate::chosen::{about, UNKNOWN_KINDS};
use crate::judge::{self, BAD_WORD, DONE, KINDS, NO_MATERIAL, NO_ROOM, PLANE, RADIUS};
use crate::words;

pub fn run() -> Result<String, String> {
    let mut cases = Cases::new();
    rows(&mut cases)?;
    args::simple(&mut cases)?;
    for list in [List::Planes, List::Objects] {
        args::piece(list, &mut cases)?;
        pieces::run(list, &mut cases)?;
    }
    lights::run(&mut cases)?;
    whole::counts(&mut cases)?;
    whole::sums(&mut cases)?;
    whole::never_read(&mut cases)?;
    flat::capsules(&mut cases)?;
    flat::lights(&mut cases)?;
    Ok(format!("{} cases", cases.count))
}

/// A plan and `args` that are sound, put back before each case.
struct Cases {
    count: usize,
    lent: Lent,
    base: Lent,
    /// A word `tree` that no call takes, where that is the case.
    bad_tree: Option<u32>,
}

impl Cases {
    fn new() -> Cases {
        let [lent, base] = [0; 2].map(|_| Lent::new(&sound::plan(), 1));
        Cases { count: 0, lent, base, bad_tree: None }
    }

    /// The plan of the cases that follow.
    fn plan(&mut self, plan: &Plan) {
        self.base.plan.put(0, &plan.table());
    }

    fn args(&mut self, args: &[u32]) {
        self.base.args(args);
    }

    /// Makes the call with some words of `args` and of the plan changed; by the list and by a tree
    /// that stands for the objects as they then are.
    fn hold(&mut self, call: Call, args: &[(usize, u32)], plan: &[(usize, u32)], number: u32) -> Result<(), String> {
        self.lent.plan.copy(&self.base.plan);
        self.lent.args.copy(&self.base.args);
        for &(i, word) in args {
            self.lent.args.put(i, &[word]);
        }
        for &(i, word) in plan {
            self.lent.plan.put(i, &[word]);
        }
        let bad = self.bad_tree.as_ref().map(std::slice::from_ref);
        for &tree in bad.unwrap_or(call.trees()) {
            self.lent.any_tree();
            self.lent.tree = tree;
            self.count += 1;
            expect(call, &mut self.lent, number)?;
        }
        Ok(())
    }

    fn with_args(&mut self, call: Call, i: usize, word: u32, number: u32) -> Result<(), String> {
        self.hold(call, &[(i, word)], &[], number)
    }

    /// One word of the plan changed, for every call: `number` for those that test such a record
    /// (`list`; all calls where there is none), 0 for the others.
    fn with_plan(&mut self, list: Option<List>, i: usize, word: u32, number: u32) -> Result<(), String> {
        let tested = |call: Call| list.is_none_or(|list| call.tests().contains(&list));
        self.every_call(&[(i, word)], |call| if tested(call) { number } else { DONE })
    }

    /// Every call on sound `args`, with some words of the plan changed.
    fn every_call(&mut self, plan: &[(usize, u32)], number: impl Fn(Call) -> u32) -> Result<(), String> {
        for call in Call::on_plans() {
            self.args(&sound::args(call));
            self.hold(call, &[], plan, number(call))?;
        }
        Ok(())
    }
}

fn rows(cases: &mut Cases) -> Result<(), String> {
    let sphere = |r: f32| Prim::new(0, &words::bits(&[0.0, 0.0, 0.0, r]));
    let piece = Piece { material: 0, blend: 0, prim: sphere(2.0), cutters: vec![sphere(1.0)] };
    let p9 = Plan { materials: vec![sound::material()], objects: vec![piece], ..Plan::default() };
    cases.args(&[0, 0, 0]);
    for (name, plan, answer) in [("P9", p9, 1.0), ("P10", Plan::default(), f32::MAX)] {
        cases.plan(&plan);
        cases.hold(Call::DistMat, &[], &[], DONE)?;
        let have = [0, 1].map(|i| cases.lent.out.word(i));
        if have != [f32::to_bits(answer), 0] {
            let have = words::show_all(&have);
            return Err(format!("{name}: the source gives {have}"));
        }
    }
    cases.plan(&sound::plan());
    Ok(())
}

/// The kinds that a piece of the list may have.
fn kinds(list: List) -> impl Iterator<Item = u32> {
    (0..KINDS).filter(move |&kind| (kind == PLANE) == (list == List::Planes))
}

/// A kind and its words about their limits: each place from that of the kind on, the word, its number.
fn shape(kind: u32) -> Vec<(usize, u32, u32)> {
    let mut words: Vec<(usize, u32, u32)> = Vec::new();
    for (i, &range) in judge::ranges(kind).unwrap().iter().enumerate() {
        words.extend(about(range, DONE).into_iter().map(|(word, number)| (1 + i, word, number)));
    }
    words.extend(UNKNOWN_KINDS.map(|unknown| (0, unknown, BAD_WORD)));
    words
}

/// The other words of a piece likewise, where three materials are.
fn own_words() -> Vec<(usize, u32, u32)> {
    let blends = about(RADIUS, DONE).into_iter().map(|(word, number)| (BLEND, word, number));
    let mut words: Vec<(usize, u32, u32)> = blends.collect();
    words.extend([0, 1, 2].map(|material| (MATERIAL, material, DONE)));
    words.extend(ABSENT.map(|material| (MATERIAL, material, NO_MATERIAL)));
    words.extend(TOO_MANY.map(|cuts| (CUTS, cuts, NO_ROOM)));
    words
}

/// Numbers of materials that are not there, where three are.
const ABSENT: [u32; 7] = [3, 4, 64, 0x100, 0x1_0000, 1 << 31, u32::MAX];

/// Words that are no number of cutters, some of which overflow when a length is worked out.
const TOO_MANY: [u32; 9] = [9, 10, 16, 0x100, 0x108, 1 << 26, 1 << 28, 1 << 31, u32::MAX];

fn entry(list: List) -> Call {
    match list {
        List::Planes => Call::AddPlane,
        _ => Call::AddObject,
    }
}
