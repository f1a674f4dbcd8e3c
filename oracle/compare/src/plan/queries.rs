//! Queries by the plain list on random plans: distance and material as the source's, no node
//! popped, every object evaluated.

use super::draw;
use super::model::{Piece, Plan};
use super::points::{Asked, Asking};
use crate::progress::through;
use crate::rng::Rng;
use interflect::sdf::Object;

#[derive(Default)]
struct Tally {
    nearest: usize,
    bounds: usize,
    ties: usize,
    cut: usize,
}

pub fn run(plans: usize, points: usize) -> Result<String, String> {
    let mut rng = Rng::new(22);
    let mut tally = Tally::default();
    for i in through("queries", 0..plans, "plans") {
        let objects = draw::objects(&mut rng);
        let mut plan = draw::plan(&mut rng, objects);
        if rng.one_in(4) {
            twins(&mut rng, &mut plan);
        }
        of_plan(&mut rng, &plan, i, points, &mut tally)?;
    }
    let Tally { nearest, bounds, ties, cut } = tally;
    // So few of a sort would mean that the cases are badly drawn.
    let least = plans * points / 50;
    if nearest.min(bounds).min(ties).min(cut) < least {
        return Err(format!("badly drawn: {nearest} nearest, {bounds} bounds kept, {ties} ties, {cut} cut"));
    }
    Ok(format!(
        "{plans} plans from {points} points, each the source's; \
         {nearest} objects nearest ({ties} tied, {cut} by a cutter), {bounds} bounds kept"
    ))
}

/// Some objects twice, with another material: the first keeps a tie.
fn twins(rng: &mut Rng, plan: &mut Plan) {
    let count = plan.objects.len();
    for i in 0..count / 2 {
        let twin = Piece { material: rng.below(plan.materials.len()) as u32, ..plan.objects[i].clone() };
        let cutters = |piece: &Piece| piece.cutters.len();
        if cutters(&plan.objects[count - 1 - i]) == cutters(&twin) {
            plan.objects[count - 1 - i] = twin;
        }
    }
}

fn of_plan(rng: &mut Rng, plan: &Plan, shift: usize, points: usize, tally: &mut Tally) -> Result<(), String> {
    let mut asking = Asking::new(plan, shift);
    asking.junk();
    asking.ask(rng, points, &[0], |scene, asked| {
        let Asked { point, near, .. } = asked;
        if near.d < asked.bound {
            let at = |o: &&Object| o.dist(point) == near.d;
            let nearest = scene.objects.iter().find(at).unwrap();
            tally.nearest += 1;
            tally.ties += usize::from(scene.objects.iter().filter(at).count() > 1);
            tally.cut += usize::from(nearest.prim.dist(point) != near.d);
        } else {
            tally.bounds += 1;
        }
    })
}
