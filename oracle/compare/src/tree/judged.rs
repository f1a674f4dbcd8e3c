//! The trees of a call, from what it is lent: the one that is built, the one that is offered and
//! the one that stands, each with what the rules say of it. The plan is sound, the tables are of
//! full size.

use super::rules::{judge, Verdict};
use super::search::{search, Found};
use super::shape::shape;
use super::source;
use super::table::Tables;
use crate::judge::{BAD_TREE, DONE};
use crate::plan::layout::List;
use crate::plan::lent::Lent;
use crate::plan::model::Plan;
use crate::plan::source::objects;
use glam::Vec3;
use interflect::bvh::Bvh;
use interflect::scene::DistHit;
use interflect::sdf::Object;

/// What the source builds. It keeps every rule, but may go too deep.
pub fn built(lent: &Lent) -> (Tables, Verdict) {
    let objects = lent_objects(lent);
    let tables = source::build(&objects);
    let verdict = judge(&tables, &source::boxes(&objects));
    assert_ne!(verdict.number, BAD_TREE, "the source keeps the tree rules");
    (tables, verdict)
}

/// What is offered, with zeros past the tree and past the order where it is accepted.
pub fn offered(lent: &Lent) -> (Tables, Verdict) {
    let objects = lent_objects(lent);
    let tables = Tables::read(lent.offered_nodes.bytes(), lent.offered_order.bytes());
    let verdict = judge(&tables, &source::boxes(&objects));
    (tables.cut(verdict.nodes, objects.len()), verdict)
}

/// Whether the tables that are lent hold a tree of the plan's objects.
pub fn stands(lent: &Lent) -> bool {
    let boxes = source::boxes(&lent_objects(lent));
    judge(&standing(lent), &boxes).number == DONE
}

/// The tree that stands, in the source's form.
pub fn for_the_source(lent: &Lent, objects: &[Object]) -> Bvh {
    let tables = standing(lent);
    let nodes = judge(&tables, &source::boxes(objects)).nodes;
    source::tree(&tables, nodes, objects.len())
}

/// What a search of the tree that stands finds and counts.
pub fn found(lent: &Lent, objects: &[Object], point: Vec3, hit: DistHit) -> Found {
    let tables = standing(lent);
    let tree = match objects {
        [] => Vec::new(),
        _ => shape(&tables).expect("a tree stands"),
    };
    search(&tree, &tables.order, objects, point, hit)
}

fn standing(lent: &Lent) -> Tables {
    Tables::read(lent.nodes.bytes(), lent.order.bytes())
}

fn lent_objects(lent: &Lent) -> Vec<Object> {
    objects(&Plan::read(lent.plan.bytes(), &[List::Objects]).objects)
}
