//! Document 01's search of an accepted tree, with what it counts.

use super::shape::Placed;
use super::table::Bounds;
use glam::Vec3;
use interflect::bvh::aabb_dist;
use interflect::scene::DistHit;
use interflect::sdf::Object;

#[derive(Clone, Copy)]
pub struct Found {
    pub hit: DistHit,
    pub popped: u32,
    pub evaluated: u32,
}

/// Goes down the tree from a hit that is already there.
pub fn search(tree: &[Placed], order: &[u32], objects: &[Object], point: Vec3, hit: DistHit) -> Found {
    let mut found = Found { hit, popped: 0, evaluated: 0 };
    // With no objects there is no root to begin with.
    let mut waiting: Vec<usize> = if objects.is_empty() { vec![] } else { vec![0] };
    let from = |bounds: Bounds| aabb_dist(point, bounds.lo, bounds.hi);
    while let Some(place) = waiting.pop() {
        found.popped += 1;
        let Placed { node, children, .. } = &tree[place];
        if from(node.bounds) >= found.hit.d {
            continue;
        }
        if let [left, right] = children[..] {
            let far = [left, right].map(|child| from(tree[child].node.bounds));
            // The farther child first, the left one when equal.
            let right_first = far[1] > far[0];
            waiting.extend(if right_first { [right, left] } else { [left, right] });
        } else {
            let part = &order[node.start as usize..][..node.count as usize];
            for &object in part {
                evaluate(&objects[object as usize], point, &mut found);
            }
        }
    }
    found
}

fn evaluate(object: &Object, point: Vec3, found: &mut Found) {
    found.evaluated += 1;
    let d = object.dist(point);
    // A distance that is not a number is never less.
    if d < found.hit.d {
        found.hit = DistHit { d, mat: object.mat };
    }
}
