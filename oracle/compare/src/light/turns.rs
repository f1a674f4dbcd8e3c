//! Every turn of the code that shades: chosen points about chosen panels, with chosen normals and views, each
//! with each.

use super::chosen::{planes, square, with_lights};
use crate::call::Call;
use crate::judge::{AT_CENTRE, DONE};
use crate::plan::check::check;
use crate::plan::judge::centre;
use crate::plan::lent::Lent;
use crate::plan::model::Plan;
use crate::words;
use glam::Vec3;
use interflect_formula::differences::met;

const SURFACES: [[f32; 5]; 4] =
    [[0.8, 0.5, 0.3, 0.5, 0.0], [1.0, 1.0, 1.0, 0.0, 1.0], [0.5, 0.0, 1.0, 1.0, 0.5], [0.0, -0.0, 0.2, 0.02, -0.0]];

/// On the floor, under a corner, far, in the panel's plane beside it, on it and just off it to both sides, at a
/// corner and behind.
const POINTS: [[f32; 3]; 16] = [
    [0.0, 0.0, 0.0],
    [0.3, 1.0, -0.2],
    [1.0, 0.5, 1.0],
    [200.0, 0.0, 0.0],
    [10_000.0, -10_000.0, 10_000.0],
    [3.0, 2.0, 0.0],
    [0.25, 2.0, 0.5],
    [0.25, 2f32.next_down(), 0.5],
    [0.25, 2f32.next_up(), 0.5],
    [-1.0, 2.0, -1.0],
    [1.0, 2.0, 0.0],
    [0.0, 5.0, 0.0],
    [0.0, 1.999, 0.0],
    // About a panel at no height.
    [0.25, -1e-30, 0.5],
    [0.25, 1e-30, -0.5],
    [-0.5, -1e-20, 0.0],
];

const NORMALS: [[f32; 3]; 14] = [
    [0.0, 1.0, 0.0],
    [0.0, -1.0, 0.0],
    [0.0, 0.0, 1.0],
    [0.0, 0.0, -1.0],
    [1.0, 0.0, -0.0],
    [-1.0, 0.0, 0.0],
    [0.6, 0.8, -0.0],
    [0.5, 1.25, -1.0],
    [1.5, 1.5, 1.5],
    [0.0, 1e-3, 0.0],
    [0.1, 0.9, -1e-30],
    [0.0, 0.0, 0.0],
    [0.0, 0.1, -1.0],
    [0.57735026, 0.57735026, -0.57735026],
];

const VIEWS: [[f32; 3]; 8] = [
    [0.0, 1.0, 0.0],
    [0.0, -1.0, 0.0],
    [1.0, 0.0, 0.0],
    [0.6, 0.8, 0.0],
    [0.0, 0.0, 0.0],
    [-1.5, 1.5, 0.25],
    [0.0, 0.70710677, 0.70710677],
    [0.0, 1e-20, 0.0],
];

/// Panels that are flat, turned about, skew by one corner and by two, of no height, tiny, huge, and many.
fn rooms() -> Vec<Plan> {
    let flat = square(2.0);
    let mut turned = flat;
    turned.copy_within(9..12, 3);
    turned[9..12].copy_from_slice(&flat[3..6]);
    let mut skew = flat;
    skew[7] = 1.0;
    let mut twisted = flat;
    (twisted[1], twisted[7]) = (1.0, 1.0);
    let scaled = |scale: f32| {
        let mut panel = flat;
        panel[..12].iter_mut().for_each(|x| *x *= scale);
        panel
    };
    let floor = || planes(&[[0.0, 1.0, 0.0, 0.0]]);
    // The panel across which the horizon goes four times, from the origin.
    let across = [1.0, 1.0, -1.0, 3.0, -1.0, -1.0, 3.0, 1.0, 1.0, 1.0, -1.0, 1.0, 5.0, 10.0, 20.0];
    vec![
        with_lights(floor(), &[flat]),
        with_lights(planes(&[]), &[flat]),
        with_lights(planes(&[]), &[turned]),
        with_lights(planes(&[]), &[skew, twisted]),
        with_lights(planes(&[]), &[square(0.0)]),
        with_lights(planes(&[]), &[across]),
        with_lights(planes(&[]), &[scaled(1e-4), scaled(1_000.0), scaled(1e-9)]),
        with_lights(planes(&[[0.0, 0.0, 0.0, -0.01]]), &[flat, skew, turned, twisted, across, square(0.0)]),
    ]
}

pub fn run() -> Result<String, String> {
    let (mut count, mut refused, mut lit) = (0, 0, 0);
    let before = met();
    for (i, plan) in rooms().iter().enumerate() {
        let mut lent = Lent::new(plan, i);
        lent.any_tree();
        for (j, (point, normal)) in POINTS.iter().flat_map(|p| NORMALS.iter().map(move |n| (p, n))).enumerate() {
            let surface = SURFACES[j % SURFACES.len()];
            let diffuse = [&point[..], normal, &surface[..3]].concat();
            let views = VIEWS.iter().copied().chain([minus_l(plan, point)]);
            let direct = views.map(|view| [&point[..], normal, &view, &surface].concat());
            let calls = direct.map(|args| (Call::Direct, args)).chain([(Call::DirectDiffuse, diffuse)]);
            for (call, args) in calls {
                lent.args(&words::bits(&args));
                lent.tree = count % 2;
                let sent = check(call, &mut lent)?;
                assert!(matches!(sent, DONE | AT_CENTRE), "these are sound");
                count += 1;
                refused += u32::from(sent == AT_CENTRE);
                lit += u32::from((0..3).any(|i| lent.out.word(i) != 0));
            }
        }
    }
    let met = met();
    let (sixth, no_way) = (met.sixth - before.sixth, met.no_way - before.no_way);
    if sixth == 0 || no_way == 0 || lit < count / 10 {
        return Err(format!("badly chosen: {lit} lit of {count}, {sixth} sixth corners, {no_way} with no way"));
    }
    Ok(format!(
        "{count} answers, each the source's; {lit} lit, {refused} at a centre, {sixth} sixth corners, \
         {no_way} representative points at no distance"
    ))
}

/// Straight from the first panel's back: l + v has no length wherever its centre is the representative point.
fn minus_l(plan: &Plan, point: &[f32; 3]) -> [f32; 3] {
    let [x, y, z] = *point;
    let way = centre(&plan.lights[0]) - Vec3::new(x, y, z);
    let l = if way.length() > 0.0 { way.normalize() } else { Vec3::Y };
    [-l.x, -l.y, -l.z]
}
