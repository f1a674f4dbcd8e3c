//! Times of trees built and offered, ours beside the source's. Ours read and test the plan at each call, while the
//! source has it at hand.

use super::make::{self, Form, Slack};
use super::source::boxes;
use crate::bench::{alone, each, pair, race, Race, Rows, Time, REPEATED};
use crate::call::Call;
use crate::judge::DONE;
use crate::plan::bench::plan;
use crate::plan::layout::{NODES, OBJECTS};
use crate::plan::model::Plan;
use crate::plan::{source, Lent};
use crate::rng::Rng;
use crate::viewer;
use interflect::bvh::Bvh;
use interflect::sdf::Object;

/// Rooms that trees are built of.
const ROOMS: usize = 8;

pub fn rows() -> Rows {
    let mut rng = Rng::new(8);
    let plans: Vec<Plan> = (0..ROOMS).map(|_| plan(&mut rng, OBJECTS.records, 0)).collect();
    vec![build(&plans), offers(&mut rng, &plans[0])]
}

fn build(plans: &[Plan]) -> Box<dyn Race> {
    let objects: Vec<Vec<Object>> = plans.iter().map(|plan| source::objects(&plan.objects)).collect();
    let mut lent: Vec<Lent> = plans.iter().map(|plan| Lent::new(plan, 0)).collect();
    let ours = move |&room: &usize| viewer::lend(Call::Build, &mut lent[room]);
    pair("build, 256 objects", (0..ROOMS).collect(), ours, move |&room| Bvh::build(&objects[room]))
}

/// What the checker takes: an offer of the largest tree there is, less one of no objects, and
/// less one of the same objects in a single leaf, which has the test of the plan in it too.
fn offers(rng: &mut Rng, full: &Plan) -> Box<dyn Race> {
    let bounds = boxes(&source::objects(&full.objects));
    let tree = make::tree(rng, &bounds, Form::Random(1), Slack::None);
    let leaf = make::wide_leaf(OBJECTS.records as u32);
    let nothing = Plan::default();
    let mut lent = [(full, &tree), (full, &leaf), (&nothing, &leaf)].map(|(plan, tables)| {
        let mut lent = Lent::new(plan, 0);
        lent.offer(tables);
        lent
    });
    assert_eq!(viewer::lend(Call::Offer, &mut lent[0]), DONE);
    assert_eq!(lent[0].out.word(0) as usize, NODES, "the largest tree is taken");
    let run = move |call: usize, lap| each(&REPEATED[lap], |_| viewer::lend(Call::Offer, &mut lent[call]));
    race(&[&[0, 1, 2]], REPEATED.len(), run, |[whole, one, none]: [Time; 3]| {
        vec![
            alone("offer, 511 nodes", whole),
            alone("offer, one leaf", one),
            alone("offer, no objects", none),
            alone("checker, 511 nodes", whole.less(none)),
            alone("checker, less the plan's", whole.less(one)),
        ]
    })
}
