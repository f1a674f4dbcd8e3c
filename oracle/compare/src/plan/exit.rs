//! What every byte that was lent must be after a call.

use super::layout::*;
use super::lent::{Lent, Table};
use super::model::used;
use super::source;
use crate::call::{Call, OUT_BYTES, OUT_WORDS};
use crate::judge::{DONE, TOO_DEEP};
use crate::tree::judged;
use crate::tree::rules::Verdict;
use crate::tree::table::Tables;
use crate::words;
use interflect::scene::Scene;

/// Tells the tables what they must hold, given the number that the call must send. The source
/// answers from `scene` where there is one, else from the plan as it is lent.
pub fn tell(call: Call, number: u32, lent: &mut Lent, scene: Option<&Scene>) {
    lent.plan.begin();
    lent.out.begin();
    let mut out = [0; OUT_WORDS];
    if number == DONE {
        match (call, call.enters()) {
            (_, Some(list)) => out[0] = enter(list, lent),
            (Call::Build, _) => out[0] = stand(judged::built(lent), lent),
            (Call::Offer, _) => out[0] = stand(judged::offered(lent), lent),
            _ => out = source::answer(call, lent, scene),
        }
    }
    if call == Call::Build && number == TOO_DEEP {
        // The one refusal that changes something.
        no_tree(lent);
    }
    if lent.out.len() >= OUT_BYTES {
        lent.out.must_put(0, &out);
    }
}

/// An accepted entry writes one count, the new record whole and the records of its cutters
/// whole, with 0 in spare words and in those that a kind does not use; no other word of the plan.
/// A new object drops the tree. Gives the number of the new record.
fn enter(list: List, lent: &mut Lent) -> u32 {
    let args = words::all(lent.args.bytes());
    let plan = &mut lent.plan;
    let number = plan.word(list as usize);
    let at = list.section().at(number as usize);
    match list {
        List::Materials => must_record(plan, at, &args[..MATERIAL_WORDS], MATERIALS.words),
        List::Lights => must_record(plan, at, &args[..LIGHT_WORDS], LIGHTS.words),
        List::Planes | List::Objects => must_piece(plan, at, list, &args),
    }
    plan.must_put(list as usize, &[number + 1]);
    if list == List::Objects {
        no_tree(lent);
    }
    number
}

/// A new tree stands, with zeros past it. Gives the number of its nodes.
fn stand((tables, verdict): (Tables, Verdict), lent: &mut Lent) -> u32 {
    lent.nodes.must_begin_with(&tables.nodes);
    lent.order.must_begin_with(&tables.order);
    verdict.nodes as u32
}

fn no_tree(lent: &mut Lent) {
    lent.nodes.must_begin_with(&[0; NODES_WORDS]);
    lent.order.must_begin_with(&[0; ORDER_WORDS]);
}

fn must_piece(plan: &mut Table, at: usize, list: List, args: &[u32]) {
    let cuts = args[CUTS];
    let section = list.section();
    let pieces = plan.word(list as usize) as usize;
    let before: u32 = (0..pieces).map(|i| plan.word(section.at(i) + CUTS)).sum();
    let place = match list {
        List::Planes => CUTTERS.records as u32 - before - cuts,
        _ => before,
    };
    let mut record = [0; PLACE + 1];
    record[..KIND].copy_from_slice(&args[..KIND]);
    record[KIND..PLACE].copy_from_slice(&without_unused(&args[KIND..]));
    record[PLACE] = place;
    must_record(plan, at, &record, section.words);
    for i in 0..cuts as usize {
        let cutter = without_unused(&args[(1 + i) * ROW..]);
        let at = CUTTERS.at(place as usize + i);
        must_record(plan, at, &cutter, CUTTERS.words);
    }
}

/// A kind and its eight words, as they are written.
fn without_unused(prim: &[u32]) -> [u32; CUTTER_WORDS] {
    let mut written = [0; CUTTER_WORDS];
    let end = 1 + used(prim[0]);
    written[..end].copy_from_slice(&prim[..end]);
    written
}

fn must_record(plan: &mut Table, at: usize, words: &[u32], whole: usize) {
    plan.must_put(at, words);
    plan.must_put(at + words.len(), &vec![0; whole - words.len()]);
}
