//! Trees of random plans: built as the source builds them, word for word, and searched as the
//! source searches them, with the counts of the judge's search.

use super::{draw, source};
use crate::call::Call;
use crate::fault::fault;
use crate::judge::{DONE, NO_TREE, TOO_DEEP};
use crate::plan::check::{check, expect};
use crate::plan::model::Plan;
use crate::plan::points::Asking;
use crate::plan::{sound, Lent};
use crate::progress::through;
use crate::rng::Rng;
use interflect::bvh::Bvh;
use interflect::scene::{DistHit, Scene};

#[derive(Default)]
struct Tally {
    built: usize,
    deep: usize,
    /// Deep trees whose search the source itself did not survive.
    overrun: usize,
    /// Builds that differ from the source's by the sign of zeros alone.
    zeros: usize,
    most_nodes: u32,
    asked: usize,
    /// Answers by the tree with another distance or material than by the list.
    other_distance: usize,
    other_material: usize,
    pruned: usize,
}

pub fn run(plans: usize, points: usize) -> Result<String, String> {
    let mut rng = Rng::new(41);
    let mut tally = Tally::default();
    for i in through("builds", 0..plans, "plans") {
        let plan = draw::plan(&mut rng);
        of_plan(&mut rng, &plan, i, points, &mut tally)?;
    }
    let Tally { built, deep, overrun, zeros, most_nodes, asked, other_distance, other_material, pruned } = tally;
    if deep < plans / 200 || overrun == 0 || pruned < asked / 4 {
        return Err(format!("badly drawn: {deep} deep, {overrun} of them overrun, {pruned} of {asked} pruned"));
    }
    Ok(format!(
        "{built} trees built as the source's ({zeros} but for signs of zeros), to {most_nodes} \
         nodes; {deep} too deep ({overrun} of which the source's search overruns); {asked} points \
         by tree and by list ({pruned} pruned, {other_distance} to another distance, \
         {other_material} to another material)"
    ))
}

fn of_plan(rng: &mut Rng, plan: &Plan, shift: usize, points: usize, tally: &mut Tally) -> Result<(), String> {
    let mut asking = Asking::new(plan, shift);
    asking.scene.bvh = Bvh::build(&asking.scene.objects);
    if rng.one_in(2) {
        // What stood there before is of no importance.
        asking.junk();
    }
    let Asking { scene, lent, .. } = &mut asking;
    if check(Call::Build, lent)? == TOO_DEEP {
        tally.deep += 1;
        tally.overrun += usize::from(overruns(scene));
        return no_tree(lent);
    }
    tally.built += 1;
    tally.most_nodes = tally.most_nodes.max(lent.out.word(0));
    tally.zeros += usize::from(differs(&scene.bvh, lent));
    asking.ask(rng, points, &[0, 1], |_, asked| {
        let [list, tree] = asked.answers[..] else { unreachable!() };
        tally.asked += 1;
        tally.other_distance += usize::from(list[0] != tree[0]);
        tally.other_material += usize::from(list[0] == tree[0] && list[1] != tree[1]);
        tally.pruned += usize::from(tree[3] < list[3]);
    })
}

/// Whether the words of the tree that we built are not all those of the source.
fn differs(bvh: &Bvh, lent: &Lent) -> bool {
    let tables = source::tables(bvh);
    let mut words = tables.nodes.iter().enumerate();
    words.any(|(i, &word)| lent.nodes.word(i) != word)
}

/// After a build that went too deep nothing stands, though the list still answers.
fn no_tree(lent: &mut Lent) -> Result<(), String> {
    for &call in Call::ASKS {
        lent.args(&sound::args(call));
        for (tree, number) in [(0, DONE), (1, NO_TREE)] {
            lent.tree = tree;
            expect(call, lent, number)?;
        }
    }
    Ok(())
}

/// Whether the source's search faults from some object's place: its stack has 64 places.
fn overruns(scene: &Scene) -> bool {
    let boxes = source::boxes(&scene.objects);
    boxes.iter().any(|own| {
        let mut best = DistHit { d: f32::MAX, mat: 0 };
        fault(|| scene.bvh.query(own.lo, &scene.objects, &mut best)).is_some()
    })
}
