//! The source with document 01's arc cosine and differences, for what depends on them: form factors and
//! radiances. All else is answered by the source as it is.

use glam::Vec3;
use interflect::bvh::Bvh;
use interflect::scene::{QuadLight, Scene};
use interflect::sdf::{Object, Prim};
use interflect_formula::differences::met;
use interflect_formula::{bvh, ltc, scene, sdf};

/// How far a form factor may be from that of the source as it is.
pub const CLOSE: f32 = 0.000004;

/// The form factor, which is close to that of the source as it is wherever that does not fault.
pub fn form_factor(corners: &[Vec3; 4]) -> f32 {
    let before = met();
    let factor = ltc::quad_form_factor(corners);
    if met() == before {
        let plain = interflect::ltc::quad_form_factor(corners);
        assert!((factor - plain).abs() <= CLOSE, "{factor} and, as it is, {plain}: {corners:?}");
    }
    factor
}

/// The same scene for that build.
pub fn scene(of: &Scene) -> scene::Scene {
    scene::Scene {
        objects: of.objects.iter().map(object).collect(),
        planes: of.planes.iter().map(object).collect(),
        materials: Vec::new(),
        lights: of.lights.iter().map(light).collect(),
        camera: scene::Camera::default(),
        cfg: scene::RenderCfg::default(),
        bvh: tree(&of.bvh),
        use_bvh: of.use_bvh,
        bounds: of.bounds,
    }
}

fn object(of: &Object) -> sdf::Object {
    sdf::Object { prim: prim(&of.prim), subtract: of.subtract.iter().map(prim).collect(), mat: of.mat, blend: of.blend }
}

fn prim(of: &Prim) -> sdf::Prim {
    match *of {
        Prim::Sphere { c, r } => sdf::Prim::Sphere { c, r },
        Prim::RoundBox { c, b, r } => sdf::Prim::RoundBox { c, b, r },
        Prim::Plane { n, h } => sdf::Prim::Plane { n, h },
        Prim::Capsule { a, b, r } => sdf::Prim::Capsule { a, b, r },
        Prim::Torus { c, major, minor } => sdf::Prim::Torus { c, major, minor },
        Prim::Cylinder { a, b, r } => sdf::Prim::Cylinder { a, b, r },
        Prim::Cone { a, b, ra, rb } => sdf::Prim::Cone { a, b, ra, rb },
    }
}

fn light(of: &QuadLight) -> scene::QuadLight {
    scene::QuadLight { verts: of.verts, emit: of.emit }
}

fn tree(of: &Bvh) -> bvh::Bvh {
    let node =
        |n: &interflect::bvh::Node| bvh::Node { lo: n.lo, hi: n.hi, start: n.start, count: n.count, right: n.right };
    bvh::Bvh { nodes: of.nodes.iter().map(node).collect(), order: of.order.clone(), empty: of.empty }
}
