//! Damaged plans: a word of a good plan, sometimes two, is changed. A call must send the number
//! that the judge says or, where the word is not read, answer as if nothing had happened.

mod strike;

use super::check::check;
use super::judge::centre;
use super::layout::*;
use super::lent::Lent;
use super::model::{cutters_of, used, Plan};
use super::{draw, questions, sound};
use crate::call::Call;
use crate::chosen::NAN;
use crate::progress::through;
use crate::rng::Rng;
use crate::source::put_vec3;

/// Damages of one plan before the next is drawn.
const OF_A_PLAN: usize = 40;

/// Fewer refusals with some number than one in this many damages would mean bad drawing.
const LEAST: usize = 400;

/// How often each call sent each number.
#[derive(Default)]
struct Sent([[usize; 10]; Call::ALL.len()]);

impl Sent {
    fn in_all(&self, number: usize) -> usize {
        self.0.iter().map(|of_call| of_call[number]).sum()
    }

    fn lines(&self) -> String {
        let line = |call: Call| {
            let of_call = self.0[call as usize];
            format!("\n    {}: {of_call:?}", call.name())
        };
        Call::on_plans().map(line).collect()
    }
}

pub fn run(damages: usize) -> Result<String, String> {
    let mut rng = Rng::new(23);
    let mut sent = Sent::default();
    for i in through("damage", 0..damages / OF_A_PLAN, "plans") {
        let objects = draw::objects(&mut rng);
        let plan = draw::plan(&mut rng, objects);
        // The tree is right for any objects, as long as they are as many.
        let mut good = Lent::new(&plan, i);
        good.any_tree();
        let mut lent = Lent::new(&plan, i);
        for _ in 0..OF_A_PLAN {
            lent.copy(&good);
            lent.tree = rng.below(2) as u32;
            strike::strike(&mut rng, &plan, &mut lent.plan);
            while rng.one_in(5) {
                strike::strike(&mut rng, &plan, &mut lent.plan);
            }
            let march = rng.pick(&[Call::Trace, Call::SoftShadow, Call::Direct, Call::DirectDiffuse]);
            let entry = rng.pick(Call::ENTRIES);
            let tree = rng.pick(Call::TREES);
            // What may be accepted comes last: the tree's call changes the tree, the entry all.
            for call in [Call::Query, Call::DistMat, march, tree, entry] {
                try_call(&mut rng, &plan, call, &mut lent, &mut sent)?;
            }
        }
    }
    let in_all: Vec<usize> = (0..10).map(|number| sent.in_all(number)).collect();
    // Trees that don't fit the number of objects are few, and none is deep.
    if in_all[..6].iter().chain(&in_all[9..]).any(|&n| n < damages / LEAST) {
        return Err(format!("badly drawn: of each number {in_all:?}"));
    }
    let lines = sent.lines();
    Ok(format!("{damages} plans; of each number, 0 to 9, {in_all:?}{lines}"))
}

/// Each word of one plan in turn, made no number: those that are read and no others are seen.
pub fn every_word() -> Result<String, String> {
    let mut rng = Rng::new(24);
    let mut sent = Sent::default();
    let plan = loop {
        let plan = draw::plan(&mut rng, 40);
        let full = |list: List| plan.count(list) == list.section().records;
        let cut = [&plan.planes, &plan.objects].map(|pieces| cutters_of(pieces) > 0);
        if cut == [true, true] && !List::ALL.into_iter().any(full) {
            break plan;
        }
    };
    let mut good = Lent::new(&plan, 0);
    good.any_tree();
    let mut lent = Lent::new(&plan, 0);
    for i in through("words", 0..PLAN_WORDS, "words") {
        for call in Call::on_plans() {
            lent.copy(&good);
            lent.tree = (i % 2) as u32;
            lent.plan.put(i, &[NAN]);
            try_call(&mut rng, &plan, call, &mut lent, &mut sent)?;
        }
    }
    for call in Call::on_plans() {
        let (have, want) = (sent.0[call as usize], read_words(&plan, call));
        if have[1..6] != want || have[6..9] != [0; 3] {
            let name = call.name();
            return Err(format!("{name}: {have:?} numbers, of 1 to 5 must be {want:?}"));
        }
    }
    let lines = sent.lines();
    Ok(format!("{PLAN_WORDS} in turn; of each number, 0 to 9{lines}"))
}

/// How many words of a plan a call reads, by the number that they get when they are no number:
/// apart from the judge.
fn read_words(plan: &Plan, call: Call) -> [usize; 5] {
    let mut read = [0, 4, 0, 0, 0];
    if call.tests_lights() {
        read[0] += LIGHT_WORDS * plan.lights.len();
    }
    for list in call.tested_pieces() {
        let pieces = match list {
            List::Planes => &plan.planes,
            _ => &plan.objects,
        };
        for piece in pieces {
            let shapes = piece.cutters.iter().chain([&piece.prim]);
            // The blend, then kinds with their words; number of cutters and place; material.
            read[0] += 1 + shapes.map(|prim| 1 + used(prim.kind)).sum::<usize>();
            read[1] += 2;
            read[2] += 1;
        }
    }
    read
}

fn try_call(rng: &mut Rng, plan: &Plan, call: Call, lent: &mut Lent, sent: &mut Sent) -> Result<(), String> {
    let mut args = if call.asks() { questions::args(rng, plan, call) } else { sound::args(call) };
    if call.args_words() == ROW {
        args[MATERIAL] = 0;
    }
    if call.tests_lights() && !plan.lights.is_empty() && rng.one_in(6) {
        // At a light's centre, if it still is one.
        let light = rng.below(plan.lights.len());
        put_vec3(&mut args, centre(&plan.lights[light]));
    }
    lent.args(&args);
    let number = check(call, lent)?;
    sent.0[call as usize][number as usize] += 1;
    Ok(())
}
