//! Trees that are offered: built ones, others that keep the rules, deep ones, and each of these
//! with something changed. The same words then stand, and are asked by.

use super::make::{self, Form, Lean, Slack};
use super::rules::judge;
use super::strike::{strike, Does};
use super::table::{Bounds, Tables};
use super::{draw, source};
use crate::call::Call;
use crate::judge::{BAD_TREE, DONE, NO_TREE, TOO_DEEP};
use crate::plan::check::{check, expect};
use crate::plan::lent::Lent;
use crate::plan::model::Plan;
use crate::plan::questions;
use crate::plan::source::objects;
use crate::progress::through;
use crate::rng::Rng;
use interflect::sdf::Object;

/// Offers for one plan before the next is drawn.
const OF_A_PLAN: usize = 25;

/// How often an offer got each number, and how often its words then stood.
#[derive(Default)]
struct Tally {
    offered: [usize; 10],
    stood: usize,
    not: usize,
    /// Offers whose number was plain before the judge was asked.
    known: usize,
}

pub fn run(offers: usize) -> Result<String, String> {
    let mut rng = Rng::new(42);
    let mut tally = Tally::default();
    for i in through("offers", 0..offers / OF_A_PLAN, "plans") {
        let plan = draw::plan(&mut rng);
        let mut case = Case::new(plan, i);
        for _ in 0..OF_A_PLAN {
            case.offer(&mut rng, &mut tally)?;
        }
    }
    let [taken, bad, deep] = [DONE, BAD_TREE, TOO_DEEP].map(|n| tally.offered[n as usize]);
    let Tally { stood, not, known, .. } = tally;
    let line = format!(
        "{offers} trees offered, {known} of them with a number known beforehand: {taken} taken, \
         {bad} got 6, {deep} got 7; as standing trees {stood} counted, {not} did not"
    );
    if taken.min(bad) < offers / 5 || deep < offers / 100 {
        return Err(format!("badly drawn: {line}"));
    }
    Ok(line)
}

struct Case {
    plan: Plan,
    objects: Vec<Object>,
    boxes: Vec<Bounds>,
    lent: Lent,
}

impl Case {
    fn new(plan: Plan, shift: usize) -> Case {
        let objects = objects(&plan.objects);
        Case { boxes: source::boxes(&objects), objects, lent: Lent::new(&plan, shift), plan }
    }

    fn offer(&mut self, rng: &mut Rng, tally: &mut Tally) -> Result<(), String> {
        let mut tree = self.good(rng);
        let number = judge(&tree, &self.boxes).number;
        let does = self.strike(rng, &mut tree);
        let known = match does {
            Does::Nothing => Some(number),
            Does::Breaks => Some(BAD_TREE),
            Does::Unknown => None,
        };
        // What stands is a tree, or anything: an offer does not look at it.
        let standing = self.good(rng);
        self.lent.stand(&standing);
        if rng.one_in(4) {
            let junk = rng.word();
            self.lent.nodes.fill(|i| (i as u32).wrapping_mul(junk) as u8);
        }
        self.lent.offer(&tree);
        if let Some(number) = known {
            expect(Call::Offer, &mut self.lent, number)?;
            tally.known += 1;
        }
        // Again, since the same offer on the tree that now stands must end likewise.
        let sent = check(Call::Offer, &mut self.lent)?;
        tally.offered[sent as usize] += 1;
        self.stand(rng, &tree, sent, tally)
    }

    /// The words that were offered stand as they are, with what lies past them.
    fn stand(&mut self, rng: &mut Rng, tree: &Tables, sent: u32, tally: &mut Tally) -> Result<(), String> {
        self.lent.stand(tree);
        self.lent.tree = 1;
        let call = rng.pick(Call::ASKS);
        self.lent.args(&questions::args(rng, &self.plan, call));
        let number = if sent == DONE { DONE } else { NO_TREE };
        tally.stood += usize::from(number == DONE);
        tally.not += usize::from(number != DONE);
        expect(call, &mut self.lent, number)
    }

    /// A tree that keeps the rules, but for its depth at times.
    fn good(&self, rng: &mut Rng) -> Tables {
        if rng.one_in(4) {
            return source::build(&self.objects);
        }
        let leaf = rng.pick(&[1, 2, 4, 20]);
        let depth = rng.pick(&[1, 10, 62, 63, 64, 65, 100, 255]);
        let lean = rng.pick(&[Lean::Left, Lean::Right, Lean::Both]);
        // Few plans have objects enough for a deep tree.
        let chains = if self.boxes.len() > 64 { 2 } else { 5 };
        let form = match rng.below(chains) {
            0 => Form::Chain(depth, lean),
            _ => Form::Random(leaf),
        };
        let most = rng.unit() * 100.0;
        let slack = rng.pick(&[Slack::None, Slack::Ulp, Slack::Some(most), Slack::All]);
        make::tree(rng, &self.boxes, form, slack)
    }

    /// Most often one change, sometimes none or several.
    fn strike(&self, rng: &mut Rng, tree: &mut Tables) -> Does {
        if self.boxes.is_empty() {
            // Then nothing is judged.
            let place = rng.below(tree.nodes.len());
            tree.nodes[place] = rng.word();
            tree.order[place % 256] = rng.word();
            return Does::Nothing;
        }
        let mut does = Does::Nothing;
        if !rng.one_in(5) {
            does = strike(rng, tree, &self.boxes);
        }
        while rng.one_in(8) && judge(tree, &self.boxes).number != BAD_TREE {
            strike(rng, tree, &self.boxes);
            does = Does::Unknown;
        }
        does
    }
}
