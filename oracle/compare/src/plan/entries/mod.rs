//! Entries from the empty plan on: to every limit, and in random order with faults between.

mod growing;

use super::check::{check, expect};
use super::layout::*;
use super::lent::Lent;
use super::model::Plan;
use super::sound;
use crate::call::{Call, OUT_BYTES};
use crate::chosen::NOT_FINITE;
use crate::judge::{BAD_WORD, DONE, NO_MATERIAL, NO_ROOM, PLANE};
use crate::progress::through;
use crate::rng::Rng;
use growing::{Growing, Thing};

/// Calls of a random sequence: enough to fill every list.
const CALLS: usize = 500;

pub fn run(sequences: usize) -> Result<String, String> {
    let mut grown = vec![lists()?];
    for (planes_every, cutters) in [(1, 8), (2, 8), (3, 7), (9, 5), (usize::MAX, 8)] {
        grown.push(shared_cutters(planes_every, cutters)?);
    }
    nine_cutters()?;
    for i in through("entries", 0..sequences, "sequences") {
        grown.push(random(100 + i as u64)?);
    }
    let sent: [usize; 10] = std::array::from_fn(|i| grown.iter().map(|g| g.sent[i]).sum());
    Ok(format!("to every limit, and {sequences} sequences of {CALLS} calls; of each number {sent:?}"))
}

/// Fills each list; one more gets 2, and so does a second one.
fn lists() -> Result<Growing, String> {
    let mut growing = Growing::new(20);
    for list in [List::Planes, List::Objects] {
        let thing = growing.draw(list, 1, 0);
        growing.must(thing, NO_MATERIAL)?;
    }
    for list in List::ALL {
        let records = list.section().records;
        for i in 0..records + 2 {
            let thing = growing.draw(list, MATERIALS.records, i % 4);
            growing.must(thing, if i < records { DONE } else { NO_ROOM })?;
        }
    }
    Ok(growing)
}

/// Fills the 1,024 places but for one, with a plane now and then. Two cutters have no room then,
/// one enters, and one more has none, in either list; a piece without cutters still enters.
fn shared_cutters(planes_every: usize, cutters: usize) -> Result<Growing, String> {
    let mut growing = Growing::new(21);
    let thing = growing.draw(List::Materials, 0, 0);
    growing.must(thing, DONE)?;
    for i in 1.. {
        let left = CUTTERS.records - 1 - growing.plan.cutters();
        if left == 0 {
            break;
        }
        let plane = i % planes_every == 0 && growing.plan.planes.len() + 1 < PLANES.records;
        let list = if plane { List::Planes } else { List::Objects };
        let thing = growing.draw(list, 1, cutters.min(left));
        growing.must(thing, DONE)?;
    }
    let (last, other) = match cutters {
        8 => (List::Objects, List::Planes),
        _ => (List::Planes, List::Objects),
    };
    let mut cases: Vec<(List, usize, u32)> = Vec::new();
    for cutters in 2..=MOST_CUTTERS {
        cases.extend([(last, cutters, NO_ROOM), (other, cutters, NO_ROOM)]);
    }
    cases.extend([(last, 1, DONE), (last, 1, NO_ROOM), (other, 1, NO_ROOM)]);
    cases.extend([(other, 0, DONE), (List::Objects, 0, DONE)]);
    for (list, cutters, number) in cases {
        let thing = growing.draw(list, 1, cutters);
        growing.must(thing, number)?;
    }
    Ok(growing)
}

/// A ninth cutter gets 2, and none of the nine is judged; the piece's own words are.
fn nine_cutters() -> Result<(), String> {
    let mut lent = Lent::new(&sound::plan(), 5);
    for (call, kind) in [(Call::AddObject, 1), (Call::AddPlane, PLANE)] {
        let nine = sound::piece(kind, &[0, 1, 2, 3, 4, 5, 6, 0, 1]).args(|| 0);
        let mut cases = vec![(BLEND, NOT_FINITE[0], BAD_WORD), (MATERIAL, 3, NO_ROOM)];
        cases.extend((1..10).map(|row| (row * ROW, 7, NO_ROOM)));
        for (i, word, number) in cases {
            let mut args = nine.clone();
            args[i] = word;
            lent.args(&args);
            expect(call, &mut lent, number)?;
        }
    }
    Ok(())
}

fn random(seed: u64) -> Result<Growing, String> {
    let mut growing = Growing::new(seed);
    let most = growing.rng.pick(&[0, 1, 3, 8]);
    // In some sequences the short lists fill up late.
    let seldom = growing.rng.pick(&[1, 4, 20]);
    for _ in 0..CALLS {
        let list = if growing.rng.one_in(seldom) { growing.rng.pick(&List::ALL) } else { List::Objects };
        // Now and then a material that is not there.
        let absent = usize::from(growing.rng.one_in(16));
        let materials = (growing.plan.materials.len() + absent).max(1);
        let cutters = growing.rng.below(most + 1);
        let thing = growing.draw(list, materials, cutters);
        if growing.rng.one_in(6) {
            let number = faulty(&mut growing, &thing)?;
            growing.sent[number as usize] += 1;
        } else {
            growing.enter(thing)?;
        }
        if growing.rng.one_in(16) {
            // A tree, which stays until the next object.
            let sent = check(Call::Build, &mut growing.lent)?;
            growing.sent[sent as usize] += 1;
        }
        if growing.rng.one_in(16) {
            ask(&mut growing)?;
        }
    }
    Ok(growing)
}

/// By the list, or by the tree if one still stands.
fn ask(growing: &mut Growing) -> Result<(), String> {
    growing.lent.tree = growing.rng.below(2) as u32;
    for &call in Call::ASKS {
        growing.lent.args(&sound::args(call));
        let sent = check(call, &mut growing.lent)?;
        growing.sent[sent as usize] += 1;
    }
    Ok(())
}

/// An entry with some words changed or some table short, on a copy, for it may be accepted.
fn faulty(growing: &mut Growing, thing: &Thing) -> Result<u32, String> {
    let mut copy = Lent::new(&Plan::default(), 0);
    copy.copy(&growing.lent);
    let rng = &mut growing.rng;
    let mut args = thing.args(rng);
    while rng.one_in(2) {
        let i = rng.below(args.len());
        args[i] = match rng.below(5) {
            0 => rng.word(),
            1 => rng.pick(&NOT_FINITE),
            2 => rng.below(12) as u32,
            3 => rng.pick(&args),
            _ => args[i] ^ 1 << 31,
        };
    }
    copy.args(&args);
    match rng.below(12) {
        0 => copy.plan.resize(short(rng, PLAN_BYTES)),
        1 => copy.nodes.resize(short(rng, NODES_BYTES)),
        2 => copy.order.resize(short(rng, ORDER_BYTES)),
        3 => copy.args.resize(short(rng, 4 * args.len())),
        4 => copy.out.resize(short(rng, OUT_BYTES)),
        _ => {}
    }
    check(thing.call(), &mut copy)
}

fn short(rng: &mut Rng, full: usize) -> usize {
    let most = rng.pick(&[1, 4, full]);
    full - 1 - rng.below(most)
}
