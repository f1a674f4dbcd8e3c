//! Trees at their limits: depth 63 and 64, 511 nodes, words that overflow, what drops a tree and
//! what leaves it, and what a build or an offer does where several numbers apply.

use super::make::{self, Form, Lean, Slack};
use super::rows::powers;
use super::source::{boxes, build};
use super::table::{Bounds, Node, Tables, COUNT, RIGHT, START};
use crate::call::{Call, OUT_BYTES};
use crate::chosen::NAN;
use crate::judge::{BAD_TREE, BAD_WORD, DONE, NO_EXTENT, NO_MATERIAL, NO_ROOM, NO_TREE, TOO_DEEP, WRONG_KIND};
use crate::plan::check::expect;
use crate::plan::layout::*;
use crate::plan::lent::Lent;
use crate::plan::model::{Piece, Plan, Prim};
use crate::plan::sound;
use crate::plan::source::objects;
use crate::rng::Rng;
use crate::words;

pub fn run() -> Result<String, String> {
    let mut cases = Cases { count: 0, lent: Lent::new(&Plan::default(), 0) };
    drops(&mut cases)?;
    depths(&mut cases)?;
    full(&mut cases)?;
    overflows(&mut cases)?;
    zeros(&mut cases)?;
    deep_builds(&mut cases)?;
    deep_offers(&mut cases)?;
    Ok(format!("{} cases", cases.count))
}

struct Cases {
    count: usize,
    lent: Lent,
}

impl Cases {
    /// The plan of the cases that follow, and no tree.
    fn plan(&mut self, plan: &Plan) {
        self.lent = Lent::new(plan, self.count);
    }

    fn hold(&mut self, call: Call, number: u32) -> Result<(), String> {
        self.count += 1;
        self.lent.args(&sound::args(call));
        expect(call, &mut self.lent, number)
    }

    /// Both calls that ask, by the list and by the tree that stands.
    fn ask(&mut self, by_tree: u32) -> Result<(), String> {
        for &call in Call::ASKS {
            for (tree, number) in [(0, DONE), (1, by_tree), (2, BAD_WORD), (u32::MAX, BAD_WORD)] {
                self.lent.tree = tree;
                self.hold(call, number)?;
            }
        }
        Ok(())
    }

    /// Offers a tree beside another that stands, then lets its own words stand.
    fn offer(&mut self, tree: &Tables, number: u32) -> Result<(), String> {
        self.lent.any_tree();
        self.lent.offer(tree);
        self.hold(Call::Offer, number)?;
        // A refusal has left what stood, an accepted offer stands itself.
        self.ask(DONE)?;
        self.lent.stand(tree);
        self.ask(if number == DONE { DONE } else { NO_TREE })
    }
}

/// Spheres of radius 0 on the x axis.
fn spheres(xs: &[f32]) -> Plan {
    let sphere =
        |&x: &f32| Piece { prim: Prim::new(0, &words::bits(&[x, 0.0, 0.0, 0.0])), blend: 0, ..sound::piece(0, &[]) };
    Plan { materials: vec![sound::material(); 3], objects: xs.iter().map(sphere).collect(), ..Plan::default() }
}

fn in_a_row(count: usize) -> Plan {
    let xs: Vec<f32> = (0..count).map(|i| i as f32).collect();
    spheres(&xs)
}

fn bounds(plan: &Plan) -> Vec<Bounds> {
    boxes(&objects(&plan.objects))
}

/// A new object drops the tree; a material, a plane and a light leave it.
fn drops(cases: &mut Cases) -> Result<(), String> {
    cases.plan(&sound::plan());
    cases.ask(NO_TREE)?;
    cases.hold(Call::Build, DONE)?;
    cases.ask(DONE)?;
    let former = Tables::read(cases.lent.nodes.bytes(), cases.lent.order.bytes());
    for call in [Call::AddMaterial, Call::AddPlane, Call::AddLight] {
        cases.hold(call, DONE)?;
        cases.ask(DONE)?;
    }
    cases.hold(Call::AddObject, DONE)?;
    cases.ask(NO_TREE)?;
    // It was the tree of three objects, and is none of four.
    cases.lent.offer(&former);
    cases.hold(Call::Offer, BAD_TREE)?;
    cases.ask(NO_TREE)?;
    cases.hold(Call::Build, DONE)?;
    cases.ask(DONE)?;
    // A refused entry leaves the tree.
    cases.lent.args(&sound::piece(2, &[]).args(|| 0));
    expect(Call::AddObject, &mut cases.lent, WRONG_KIND)?;
    cases.ask(DONE)
}

fn chain(plan: &Plan, depth: usize, lean: Lean) -> Tables {
    let mut rng = Rng::new(depth as u64);
    make::tree(&mut rng, &bounds(plan), Form::Chain(depth, lean), Slack::Ulp)
}

/// Every depth that 256 objects can have.
fn depths(cases: &mut Cases) -> Result<(), String> {
    let plan = in_a_row(OBJECTS.records);
    cases.plan(&plan);
    for depth in 0..OBJECTS.records {
        for lean in [Lean::Left, Lean::Right, Lean::Both] {
            let number = if depth <= 63 { DONE } else { TOO_DEEP };
            let tree = chain(&plan, depth, lean);
            if depth.abs_diff(63) < 3 || depth % 50 == 0 {
                cases.offer(&tree, number)?;
            } else {
                cases.lent.offer(&tree);
                cases.hold(Call::Offer, number)?;
            }
        }
    }
    Ok(())
}

/// 511 nodes: a leaf for each object. Without the last leaf the table ends before the tree.
fn full(cases: &mut Cases) -> Result<(), String> {
    let plan = in_a_row(OBJECTS.records);
    cases.plan(&plan);
    let mut rng = Rng::new(43);
    let tree = make::tree(&mut rng, &bounds(&plan), Form::Random(1), Slack::None);
    let mut single = tree.nodes.chunks(NODE_WORDS).map(|node| node[COUNT]);
    assert!(single.all(|count| count <= 1), "each leaf has one object");
    cases.offer(&tree, DONE)?;
    let mut endless = tree.clone();
    endless.nodes[NODES_WORDS - NODE_WORDS + COUNT] = 0;
    cases.offer(&endless, BAD_TREE)?;
    // One object fewer: the same tree has a leaf too many.
    cases.plan(&in_a_row(OBJECTS.records - 1));
    cases.offer(&tree, BAD_TREE)
}

/// Counts, starts and places that come right again when they overflow.
fn overflows(cases: &mut Cases) -> Result<(), String> {
    let plan = in_a_row(2);
    cases.plan(&plan);
    let wide = make::wide_leaf(2);
    let Bounds { lo, hi } = wide.node(0).bounds;
    let node = |[start, count, right]: [u32; 3]| Node { bounds: Bounds { lo, hi }, start, count, right };
    let tree = |leaves: [[u32; 3]; 2], right: u32| {
        let nodes = [node([0, 0, right]), node(leaves[0]), node(leaves[1])];
        Tables::new(&nodes, &[0, 1])
    };
    cases.offer(&tree([[0, 1, 0], [1, 1, 0]], 2), DONE)?;
    // Sums that are 2 but for their carry.
    cases.offer(&tree([[0, 1 << 31, 0], [1 << 31, (1 << 31) + 2, 0]], 2), BAD_TREE)?;
    cases.offer(&tree([[0, u32::MAX, 0], [u32::MAX, 3, 0]], 2), BAD_TREE)?;
    cases.offer(&tree([[0, 3, 0], [3, u32::MAX, 0]], 2), BAD_TREE)?;
    for right in [0, 1, 3, 510, 511, 512, 1 << 31, (1 << 31) + 2, u32::MAX] {
        cases.offer(&tree([[0, 1, 0], [1, 1, 0]], right), BAD_TREE)?;
    }
    for count in [0, 1, 3, 257, (1 << 31) + 2, 1 << 31, u32::MAX] {
        cases.offer(&make::wide_leaf(count), BAD_TREE)?;
    }
    for (word, off) in [(START, 1), (START, u32::MAX), (RIGHT, 1), (RIGHT, u32::MAX)] {
        let mut leaf = wide.clone();
        leaf.nodes[word] = off;
        cases.offer(&leaf, BAD_TREE)?;
    }
    Ok(())
}

/// No tree stands in tables of zeros, nor in nodes that are all interior.
fn zeros(cases: &mut Cases) -> Result<(), String> {
    for count in [1, 4, 5, OBJECTS.records] {
        cases.plan(&in_a_row(count));
        cases.offer(&Tables::new(&[], &[]), BAD_TREE)?;
        let mut interior = make::wide_leaf(0);
        for place in 1..NODES {
            let (first, rest) = interior.nodes.split_at_mut(NODE_WORDS);
            rest[(place - 1) * NODE_WORDS..][..NODE_WORDS].copy_from_slice(first);
        }
        cases.offer(&interior, BAD_TREE)?;
    }
    Ok(())
}

/// Changes of a plan's first object that break it, with what each gets.
const BROKEN: [(usize, u32, u32); 5] = [
    (BLEND, NAN, BAD_WORD),
    (CUTS, 9, NO_ROOM),
    (MATERIAL, 3, NO_MATERIAL),
    (KIND, 3, NO_EXTENT),
    (KIND, 2, WRONG_KIND),
];

/// A build that ends in 7 takes the tree that stood; any other refusal of the same leaves it.
fn deep_builds(cases: &mut Cases) -> Result<(), String> {
    let plan = spheres(&powers(-26..=41));
    cases.plan(&plan);
    let short: [fn(&mut Lent); 4] = [
        |lent| lent.plan.resize(PLAN_BYTES - 1),
        |lent| lent.nodes.resize(NODES_BYTES - 1),
        |lent| lent.order.resize(ORDER_BYTES - 4),
        |lent| lent.out.resize(OUT_BYTES - 1),
    ];
    for shorten in short {
        cases.plan(&plan);
        cases.lent.any_tree();
        shorten(&mut cases.lent);
        cases.hold(Call::Build, NO_ROOM)?;
    }
    // The first sphere lies at the end of the chain; as another shape it has words of zeros.
    for (word, value, number) in BROKEN {
        let mut plan = plan.clone();
        plan.objects[0] = spheres(&[0.0]).objects.remove(0);
        cases.plan(&plan);
        cases.lent.any_tree();
        cases.lent.plan.put(OBJECTS.at(0) + word, &[value]);
        cases.hold(Call::Build, number)?;
        cases.hold(Call::Offer, number)?;
    }
    cases.plan(&plan);
    cases.lent.any_tree();
    cases.ask(DONE)?;
    cases.hold(Call::Build, TOO_DEEP)?;
    cases.ask(NO_TREE)?;
    // It may still be offered a tree that is not so deep.
    cases.hold(Call::Offer, DONE)?;
    cases.ask(DONE)
}

/// A deep tree that breaks another rule gets 6, and the source's own deep tree 7.
fn deep_offers(cases: &mut Cases) -> Result<(), String> {
    let plan = spheres(&powers(-26..=41));
    let deep = build(&objects(&plan.objects));
    cases.plan(&plan);
    cases.offer(&deep, TOO_DEEP)?;
    let mut broken = deep.clone();
    broken.order[0] = broken.order[1];
    cases.offer(&broken, BAD_TREE)?;
    for word in 0..NODE_WORDS {
        let mut broken = deep.clone();
        broken.nodes[word] = NAN;
        cases.offer(&broken, BAD_TREE)?;
    }
    cases.lent.any_tree();
    cases.lent.offer(&deep);
    cases.lent.out.resize(OUT_BYTES - 1);
    cases.hold(Call::Offer, NO_ROOM)?;
    cases.lent.out.resize(OUT_BYTES);
    cases.lent.plan.put(OBJECTS.at(0) + MATERIAL, &[3]);
    cases.hold(Call::Offer, NO_MATERIAL)
}
