//! The answers of the source itself, by the plain list and by a tree.

use super::lent::Lent;
use super::model::{Piece, Plan};
use crate::call::{Call, OUT_WORDS};
use crate::light;
use crate::source::{self, prim, vec3};
use crate::tree::judged;
use crate::words::{self, same};
use glam::Vec3;
use interflect::bvh::Bvh;
use interflect::scene::{Camera, DistHit, RenderCfg, Scene};
use interflect::sdf::Object;

/// The source's scene of a plan. It has no tree, and is asked with `use_bvh` false until it is
/// given one.
pub fn scene(plan: &Plan) -> Scene {
    Scene {
        objects: objects(&plan.objects),
        planes: objects(&plan.planes),
        materials: Vec::new(),
        lights: plan.lights.iter().map(|light| source::light(light)).collect(),
        camera: Camera::default(),
        cfg: RenderCfg::default(),
        bvh: Bvh::build(&[]),
        use_bvh: false,
        bounds: (Vec3::ZERO, Vec3::ZERO),
    }
}

pub fn objects(pieces: &[Piece]) -> Vec<Object> {
    pieces.iter().map(object).collect()
}

fn object(piece: &Piece) -> Object {
    Object {
        prim: prim(piece.prim.kind, &piece.prim.shape),
        subtract: piece.cutters.iter().map(|cutter| prim(cutter.kind, &cutter.shape)).collect(),
        mat: piece.material,
        blend: f32::from_bits(piece.blend),
    }
}

/// The nearest object that is nearer than the bound, else the bound and the word beside it.
#[inline]
pub fn query(scene: &Scene, point: Vec3, bound: f32, material: u32) -> DistHit {
    let mut best = DistHit { d: bound, mat: material };
    if scene.use_bvh {
        scene.bvh.query(point, &scene.objects, &mut best);
    } else {
        scene.bvh.query_linear(point, &scene.objects, &mut best);
    }
    best
}

/// The scene of what is lent to an accepted call that asks.
fn read(call: Call, lent: &Lent) -> Scene {
    let mut scene = scene(&Plan::read(lent.plan.bytes(), call.tests()));
    if lent.tree == 1 {
        scene.bvh = judged::for_the_source(lent, &scene.objects);
        scene.use_bvh = true;
    }
    scene
}

/// The `out` of an accepted call that asks.
pub fn answer(call: Call, lent: &Lent, scene: Option<&Scene>) -> [u32; OUT_WORDS] {
    let of_its_own;
    let scene = match scene {
        Some(scene) => scene,
        None => {
            of_its_own = read(call, lent);
            &of_its_own
        }
    };
    assert_eq!(scene.use_bvh, lent.tree == 1, "the scene is asked likewise");
    let args = words::all(lent.args.bytes());
    let point = vec3(&args);
    let mut out = [0; OUT_WORDS];
    let hit = match call {
        Call::Query => {
            let hit = query(scene, point, f32::from_bits(args[3]), args[4]);
            [out[2], out[3]] = counts(lent, scene, &args, hit);
            hit
        }
        Call::DistMat => scene.dist_mat(point),
        _ => return light::answer::answer(call, scene, &args),
    };
    out[0] = hit.d.to_bits();
    out[1] = hit.mat;
    out
}

/// Nodes popped and objects evaluated: by the list no node, and every object. The source does not
/// count, so the judge's search does, and must find what the source found.
fn counts(lent: &Lent, scene: &Scene, args: &[u32], hit: DistHit) -> [u32; 2] {
    if lent.tree == 0 {
        return [0, scene.objects.len() as u32];
    }
    let begin = DistHit { d: f32::from_bits(args[3]), mat: args[4] };
    let found = judged::found(lent, &scene.objects, vec3(args), begin);
    let alike = same(found.hit.d.to_bits(), hit.d.to_bits(), false);
    assert!(
        alike && found.hit.mat == hit.mat,
        "our judge's search finds {} of {}, the source {} of {}",
        found.hit.d,
        found.hit.mat,
        hit.d,
        hit.mat
    );
    [found.popped, found.evaluated]
}
