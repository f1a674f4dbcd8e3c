//! The judge of trees beside the source, with no library of ours: what the source builds keeps the
//! rules, what it finds the judge's search finds, and changes do what they plainly must.

use super::make::{self, Form, Lean, Slack};
use super::rows::{powers, spheres};
use super::rules::{judge, DEEPEST};
use super::search::search;
use super::shape::shape;
use super::strike::{strike, Does};
use super::table::{Bounds, Tables};
use super::{draw, source};
use crate::judge::{BAD_TREE, DONE, TOO_DEEP};
use crate::plan::draw::point;
use crate::plan::model::Plan;
use crate::plan::points::bound;
use crate::plan::source::objects;
use crate::rng::Rng;
use crate::source::vec3;
use interflect::bvh::Bvh;
use interflect::scene::DistHit;
use interflect::sdf::Object;

const PLANS: usize = 300;
const POINTS: usize = 30;

fn drawn(rng: &mut Rng) -> (Plan, Vec<Object>, Vec<Bounds>) {
    let plan = draw::plan(rng);
    let objects = objects(&plan.objects);
    let boxes = source::boxes(&objects);
    (plan, objects, boxes)
}

/// The depth of the source's tree, by its own links.
fn depth(tree: &Bvh, place: usize) -> usize {
    let node = &tree.nodes[place];
    if node.count > 0 {
        return 0;
    }
    1 + depth(tree, place + 1).max(depth(tree, node.right as usize))
}

#[test]
fn the_source_keeps_the_rules() {
    let mut rng = Rng::new(51);
    for _ in 0..PLANS {
        let (_, objects, boxes) = drawn(&mut rng);
        let tree = Bvh::build(&objects);
        let verdict = judge(&source::tables(&tree), &boxes);
        let deep = !objects.is_empty() && depth(&tree, 0) > DEEPEST;
        assert_eq!(verdict.number, if deep { TOO_DEEP } else { DONE });
        assert_eq!(verdict.nodes, tree.node_count());
    }
}

#[test]
fn the_source_finds_the_same() {
    let mut rng = Rng::new(52);
    for i in 0..PLANS {
        let (plan, objects, boxes) = drawn(&mut rng);
        let mut tables = source::build(&objects);
        if i % 2 == 1 {
            tables = make::tree(&mut rng, &boxes, Form::Random(6), Slack::Some(2.0));
        }
        let verdict = judge(&tables, &boxes);
        if verdict.number != DONE || objects.is_empty() {
            continue;
        }
        let theirs = source::tree(&tables, verdict.nodes, objects.len());
        for _ in 0..POINTS {
            let point = vec3(&point(&mut rng, &plan));
            let begin = DistHit { d: bound(&mut rng, objects[0].dist(point)), mat: rng.word() };
            let mut best = begin;
            theirs.query(point, &objects, &mut best);
            let tree = shape(&tables).unwrap();
            let found = search(&tree, &tables.order, &objects, point, begin);
            assert_eq!(found.hit.d, best.d);
            assert_eq!(found.hit.mat, best.mat);
            assert!((1..=verdict.nodes).contains(&(found.popped as usize)));
            assert!(found.evaluated as usize <= objects.len());
        }
    }
}

#[test]
fn changes_do_what_they_must() {
    let mut rng = Rng::new(53);
    let mut broke = 0;
    for _ in 0..PLANS {
        let (_, objects, boxes) = drawn(&mut rng);
        for _ in 0..if objects.is_empty() { 0 } else { POINTS } {
            let good = make::tree(&mut rng, &boxes, Form::Random(4), Slack::Ulp);
            let before = judge(&good, &boxes);
            assert_ne!(before.number, BAD_TREE);
            let mut struck = good.clone();
            let after = match strike(&mut rng, &mut struck, &boxes) {
                Does::Nothing => before.number,
                Does::Breaks => BAD_TREE,
                Does::Unknown => continue,
            };
            broke += usize::from(after == BAD_TREE);
            assert_eq!(judge(&struck, &boxes).number, after, "{good:?} {struck:?}");
        }
    }
    assert!(broke > PLANS);
}

#[test]
fn chains_are_as_deep_as_they_are_made() {
    let mut rng = Rng::new(54);
    let objects = objects(&spheres(&[1.0; 256]).objects);
    let boxes = source::boxes(&objects);
    for depth in 0..256 {
        for lean in [Lean::Left, Lean::Right, Lean::Both] {
            let tree = make::tree(&mut rng, &boxes, Form::Chain(depth, lean), Slack::All);
            let verdict = judge(&tree, &boxes);
            let number = if depth <= 63 { DONE } else { TOO_DEEP };
            assert_eq!((verdict.number, verdict.nodes), (number, 2 * depth + 1));
        }
    }
}

#[test]
fn row_three() {
    for (from, number) in [(-25, DONE), (-26, TOO_DEEP)] {
        let objects = objects(&spheres(&powers(from..=41)).objects);
        let verdict = judge(&source::build(&objects), &source::boxes(&objects));
        assert_eq!(verdict.number, number);
    }
}

#[test]
fn no_objects_no_tree() {
    let mut junk = Tables::new(&[], &[]);
    junk.nodes.fill(u32::MAX);
    let verdict = judge(&junk, &[]);
    assert_eq!((verdict.number, verdict.nodes), (DONE, 0));
}
