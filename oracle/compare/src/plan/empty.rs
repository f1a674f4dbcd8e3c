//! Plans of no objects beside tables that hold anything, and plans that are empty though every
//! word but the counts holds anything: what is past the counts is not read.

use super::check::expect;
use super::layout::*;
use super::lent::{Lent, Which};
use super::model::Plan;
use super::{questions, sound};
use crate::call::{Call, OUT_WORDS};
use crate::chosen::NOT_FINITE;
use crate::judge::{BAD_WORD, DONE, NO_ROOM};
use crate::rng::Rng;
use crate::words;

const TURNS: usize = 100;

pub fn run() -> Result<String, String> {
    let mut rng = Rng::new(21);
    let mut count = 0;
    for turn in 0..TURNS {
        for junk_in_the_plan in [false, true] {
            for (call, tree) in Call::with_trees() {
                let mut lent = lend(&mut rng, turn, junk_in_the_plan);
                lent.tree = tree;
                count += of_call(&mut rng, call, &mut lent)?;
            }
        }
    }
    Ok(format!("{count} calls"))
}

fn of_call(rng: &mut Rng, call: Call, lent: &mut Lent) -> Result<usize, String> {
    if call.asks() && lent.tree == 0 {
        // By the list the tree's tables are not looked at.
        lent.nodes.resize(rng.below(NODES_BYTES + 64));
        lent.order.resize(rng.below(ORDER_BYTES + 64));
    }
    let args = args(rng, call);
    // Where there is nothing to look at, the arguments are judged all the same.
    for &i in judged(call) {
        lent.args(&args);
        lent.args.put(i, &NOT_FINITE[..1]);
        expect(call, lent, BAD_WORD)?;
    }
    lent.args(&args);
    let short = short_tables(rng, call, lent)?;
    expect(call, lent, DONE)?;
    if call.asks() {
        nothing_found(call, lent, &args)?;
    }
    Ok(judged(call).len() + short + 1)
}

/// The empty tree always stands, and what is offered is not judged; but tables of trees may not be
/// short.
fn short_tables(rng: &mut Rng, call: Call, lent: &mut Lent) -> Result<usize, String> {
    let (tree, offered) = (lent.looks_at_tree(call), call == Call::Offer);
    let looked_at = [
        (Which::Nodes, NODES_BYTES, tree),
        (Which::Order, ORDER_BYTES, tree),
        (Which::OfferedNodes, NODES_BYTES, offered),
        (Which::OfferedOrder, ORDER_BYTES, offered),
    ];
    let mut count = 0;
    for (table, full, _) in looked_at.into_iter().filter(|table| table.2) {
        let any = rng.below(full);
        let short = rng.pick(&[full - 1, full - 4, any]);
        lent.table(table).resize(short);
        expect(call, lent, NO_ROOM)?;
        lent.table(table).resize(full);
        count += 1;
    }
    Ok(count)
}

/// One material and nothing else, so that a piece can enter.
fn lend(rng: &mut Rng, turn: usize, junk_in_the_plan: bool) -> Lent {
    let plan = Plan { materials: vec![sound::material(); 1], ..Plan::default() };
    let mut lent = Lent::new(&plan, turn);
    if junk_in_the_plan {
        let junk: Vec<u32> = (0..PLAN_WORDS - 4).map(|_| rng.word()).collect();
        lent.plan.put(4, &junk);
    }
    let junk = rng.word();
    for nodes in [&mut lent.nodes, &mut lent.offered_nodes] {
        nodes.fill(|i| (i as u32 + 1).wrapping_mul(junk) as u8);
    }
    for order in [&mut lent.order, &mut lent.offered_order] {
        order.fill(|i| (i as u32 ^ junk) as u8);
    }
    lent
}

fn args(rng: &mut Rng, call: Call) -> Vec<u32> {
    if call.asks() {
        return questions::args(rng, &Plan::default(), call);
    }
    let mut args = sound::args(call);
    if call.args_words() == ROW {
        args[MATERIAL] = 0;
    }
    args
}

/// Words of `args` that may not be infinite.
fn judged(call: Call) -> &'static [usize] {
    match call {
        Call::AddMaterial | Call::AddLight => &[0, 4],
        Call::AddPlane | Call::AddObject => &[BLEND, SHAPE, ROW + 1],
        Call::Build | Call::Offer => &[],
        Call::Query => &[0, 1, 2, 3],
        Call::DistMat => &[0, 1, 2],
        Call::Trace => &[0, 3, 6, 7],
        Call::SoftShadow => &[1, 4, 6, 7, 8],
        Call::Direct => &[2, 5, 8, 9, 12, 13],
        Call::DirectDiffuse => &[2, 5, 8],
        _ => call.stray(),
    }
}

/// The bound and its word come back, or `f32::MAX` and 0; nothing is popped. A ray is asked about once
/// and hits nothing; nothing shines.
fn nothing_found(call: Call, lent: &Lent, args: &[u32]) -> Result<(), String> {
    let want: &[u32] = match call {
        Call::Query => &args[3..5],
        Call::DistMat => &[f32::MAX.to_bits(), 0],
        Call::Trace => &[0, 0, 0, 0, 0, 0, 1],
        Call::SoftShadow => &in_the_open(&args[6..]),
        Call::Direct | Call::DirectDiffuse => &[],
        _ => call.stray(),
    };
    let have: [u32; OUT_WORDS] = std::array::from_fn(|i| lent.out.word(i));
    if have[..want.len()] == *want && have[want.len()..].iter().all(|&word| word == 0) {
        Ok(())
    } else {
        let have = words::show_all(&have);
        Err(format!("{}: the source finds {have}", call.name()))
    }
}

/// Visibility and count with nothing about, in the steps of 0.12 that are the longest. Only a `k` of
/// next to nothing does not see the light.
fn in_the_open(args: &[u32]) -> [u32; 2] {
    let [mut t, tmax, k] = [0, 1, 2].map(|i| f32::from_bits(args[i]));
    let (mut visible, mut count) = (1f32, 0);
    while count < 96 && t < tmax {
        count += 1;
        visible = visible.min(k * f32::MAX / t.max(1e-4));
        if visible < 1e-3 {
            return [0, count];
        }
        t += 0.12;
    }
    [visible.to_bits(), count]
}
