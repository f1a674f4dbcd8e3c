//! Document 01's rows P11 to P13, and marches and places of which the answer is known beforehand, so that the
//! source is tested too. Each by the list and by a tree.

use crate::call::Call;
use crate::judge::{AT_CENTRE, DONE, PLANE};
use crate::plan::check::expect;
use crate::plan::lent::Lent;
use crate::plan::model::{Piece, Plan, Prim};
use crate::plan::sound;
use crate::words;

pub fn run() -> Result<String, String> {
    let mut cases = Cases { count: 0 };
    rows(&mut cases)?;
    rays(&mut cases)?;
    shadows(&mut cases)?;
    dark(&mut cases)?;
    centres(&mut cases)?;
    Ok(format!("{} cases, P11 to P13 among them", cases.count))
}

struct Cases {
    count: usize,
}

impl Cases {
    /// The call must send the number, and its answer begin with these words; the rest are 0.
    fn hold(&mut self, plan: &Plan, call: Call, args: &[f32], number: u32, want: &[u32]) -> Result<(), String> {
        let mut lent = Lent::new(plan, self.count);
        lent.any_tree();
        lent.args(&words::bits(args));
        for tree in [0, 1] {
            lent.tree = tree;
            expect(call, &mut lent, number)?;
            self.count += 1;
            let have: Vec<u32> = (0..call.named_words()).map(|i| lent.out.word(i)).collect();
            let same = |(i, &have): (usize, &u32)| words::same(have, want.get(i).copied().unwrap_or(0), false);
            if !have.iter().enumerate().all(same) {
                let have = words::show_all(&have);
                return Err(format!("{} of {args:?}: the source says {have}", call.name()));
            }
        }
        Ok(())
    }

    fn hit(&mut self, plan: &Plan, args: &[f32], t: f32, p: [f32; 3], material: u32, count: u32) -> Result<(), String> {
        let [x, y, z] = p.map(f32::to_bits);
        self.hold(plan, Call::Trace, args, DONE, &[1, t.to_bits(), x, y, z, material, count])
    }

    fn miss(&mut self, plan: &Plan, args: &[f32], count: u32) -> Result<(), String> {
        self.hold(plan, Call::Trace, args, DONE, &[0, 0, 0, 0, 0, 0, count])
    }

    fn shadow(&mut self, plan: &Plan, args: &[f32], visible: f32, count: u32) -> Result<(), String> {
        self.hold(plan, Call::SoftShadow, args, DONE, &[visible.to_bits(), count])
    }

    /// Both calls that shade; the surface and the view are of no importance.
    fn shade(&mut self, plan: &Plan, point: [f32; 3], normal: [f32; 3], number: u32) -> Result<(), String> {
        let diffuse = [&point[..], &normal, &[1.0; 3]].concat();
        let direct = [&point[..], &normal, &[0.0, 1.0, 0.0], &[1.0, 1.0, 1.0, 0.5, 0.5]].concat();
        self.hold(plan, Call::DirectDiffuse, &diffuse, number, &[])?;
        self.hold(plan, Call::Direct, &direct, number, &[])
    }
}

/// Planes with no cutters, each of its own material.
pub fn planes(planes: &[[f32; 4]]) -> Plan {
    let plane = |(i, plane): (usize, &[f32; 4])| Piece {
        material: i as u32,
        blend: 0,
        prim: Prim::new(PLANE, &words::bits(plane)),
        cutters: Vec::new(),
    };
    let materials = vec![sound::material(); planes.len().max(1)];
    Plan { materials, planes: planes.iter().enumerate().map(plane).collect(), ..Plan::default() }
}

const FLOOR: [f32; 4] = [0.0, 1.0, 0.0, 0.0];

/// A plan that is so far from everywhere: a plane of no normal.
fn even(distance: f32) -> Plan {
    planes(&[[0.0, 0.0, 0.0, -distance]])
}

fn rows(cases: &mut Cases) -> Result<(), String> {
    let floor = planes(&[FLOOR]);
    let down = [0.0, 3.0, 0.0, 0.0, -1.0, 0.0, 0.0];
    cases.hit(&floor, &[&down[..], &[10.0]].concat(), 3.0, [0.0; 3], 0, 2)?;
    cases.miss(&floor, &[&down[..], &[2.0]].concat(), 1)?;
    for t in [0.0, 1.0, 100_000.0] {
        cases.shadow(&floor, &[0.0, 3.0, 0.0, 0.0, -1.0, 0.0, t, t, 8.0], 1.0, 0)?;
    }
    Ok(())
}

fn rays(cases: &mut Cases) -> Result<(), String> {
    let floor = planes(&[FLOOR]);
    // One evaluation is made even where `tmin` is past `tmax`, and a hit is a hit there.
    cases.hit(&floor, &[0.0, 0.0, 0.0, 1.0, 0.0, 0.0, 5.0, 1.0], 5.0, [5.0, 0.0, 0.0], 0, 1)?;
    cases.miss(&floor, &[0.0, 3.0, 0.0, 1.0, 0.0, 0.0, 5.0, 1.0], 1)?;
    cases.miss(&floor, &[0.0, 3.0, 0.0, 1.0, 0.0, 0.0, 5.0, 5.0], 1)?;
    cases.hit(&floor, &[0.0, 0.0, 0.0, 1.0, 0.0, 0.0, 0.0, 0.0], 0.0, [0.0; 3], 0, 1)?;
    // From below the floor, at once.
    cases.hit(&floor, &[0.0, -3.0, 0.0, 0.0, 1.0, 0.0, 0.0, 9.0], 0.0, [0.0, -3.0, 0.0], 0, 1)?;
    // A direction of no length: the point stays, and `t` grows. `tmax` itself is not past it.
    let still = |tmin, tmax| [0.0, 0.0, 0.0, 0.0, 0.0, 0.0, tmin, tmax];
    cases.miss(&even(3.0), &still(0.0, 10.0), 4)?;
    cases.miss(&even(5.0), &still(0.0, 10.0), 3)?;
    cases.miss(&even(0.01), &still(0.0, 100.0), 128)?;
    // What counts as a hit grows with `t`, from 1 on; the bound itself is no hit.
    cases.hit(&even(0.001), &still(20.0, 100.0), 20.0, [0.0; 3], 0, 1)?;
    cases.miss(&even(1e-4), &still(0.0, 0.0), 1)?;
    cases.hit(&even(1e-4f32.next_down()), &still(0.0, 0.0), 0.0, [0.0; 3], 0, 1)?;
    // The nearest plane's material; of equally near ones the first's.
    let two = planes(&[[0.0, 1.0, 0.0, -1.0], FLOOR]);
    cases.hit(&two, &[0.0, 2.0, 0.0, 0.0, -1.0, 0.0, 0.0, 9.0], 2.0, [0.0; 3], 1, 2)?;
    let twins = planes(&[[0.0, 0.0, 0.0, -9.0], FLOOR, FLOOR]);
    cases.hit(&twins, &[0.0, 2.0, 0.0, 0.0, -1.0, 0.0, 0.0, 9.0], 2.0, [0.0; 3], 1, 2)?;
    // Nothing at all.
    cases.miss(&planes(&[]), &[0.0, 0.0, 0.0, 1.0, 0.0, 0.0, 0.0, 100_000.0], 1)
}

fn shadows(cases: &mut Cases) -> Result<(), String> {
    let still = |tmin, tmax, k| [0.0, 0.0, 0.0, 0.0, 0.0, 0.0, tmin, tmax, k];
    cases.shadow(&even(5.0), &still(2.0, 1.0, 8.0), 1.0, 0)?;
    // Steps of 0.12 at the longest, 96 at the most; with little between, one and a half steps are two.
    cases.shadow(&even(5.0), &still(0.0, 50.0, 8.0), 1.0, 96)?;
    cases.shadow(&even(5.0), &still(0.0, 0.18, 8.0), 1.0, 2)?;
    // Steps of 0.006 at the shortest: close by, but far enough for a sharp light.
    cases.shadow(&even(0.001), &still(0.0, 0.009, 1_000.0), 1.0, 2)?;
    // Touched; and with a `k` of 0 everything is dark.
    cases.shadow(&even(5e-5), &still(0.0, 1.0, 8.0), 0.0, 1)?;
    cases.shadow(&even(-5.0), &still(0.0, 1.0, 8.0), 0.0, 1)?;
    cases.shadow(&even(5.0), &still(0.0, 1.0, 0.0), 0.0, 1)?;
    cases.shadow(&planes(&[]), &still(0.0, 1.0, 0.0), 0.0, 1)?;
    // A half: a distance of 1 at t = 4 with k = 2, one evaluation.
    cases.shadow(&even(1.0), &still(4.0, 4.1, 2.0), 0.5, 1)?;
    cases.shadow(&planes(&[]), &still(0.0, 0.1, 8.0), 1.0, 1)
}

/// A square of side 2 about the y axis at a height, which shines down.
pub fn square(height: f32) -> [f32; 15] {
    let y = height;
    [-1.0, y, -1.0, 1.0, y, -1.0, 1.0, y, 1.0, -1.0, y, 1.0, 20.0, 10.0, 5.0]
}

pub fn with_lights(plan: Plan, lights: &[[f32; 15]]) -> Plan {
    Plan { lights: lights.iter().map(|light| light.map(f32::to_bits)).collect(), ..plan }
}

/// Places that get no light and cost no evaluation.
fn dark(cases: &mut Cases) -> Result<(), String> {
    let up = [0.0, 1.0, 0.0];
    let down = [0.0, -1.0, 0.0];
    cases.shade(&planes(&[FLOOR]), [0.0; 3], up, DONE)?;
    let lit = with_lights(planes(&[FLOOR]), &[square(2.0)]);
    // Above the panel, in its plane, turned away from it, and with a normal of no length.
    cases.shade(&lit, [0.0, 5.0, 0.0], down, DONE)?;
    cases.shade(&lit, [3.0, 2.0, 0.0], up, DONE)?;
    cases.shade(&lit, [0.0, 0.5, 0.0], down, DONE)?;
    cases.shade(&lit, [0.0, 0.5, 0.0], [0.0; 3], DONE)
}

/// At a panel's centre, by its computed length, whatever the panel's side and whichever panel it is.
fn centres(cases: &mut Cases) -> Result<(), String> {
    let up = [0.0, 1.0, 0.0];
    let lit = |lights: &[[f32; 15]]| with_lights(planes(&[FLOOR]), lights);
    cases.shade(&lit(&[square(2.0)]), [0.0, 2.0, 0.0], up, AT_CENTRE)?;
    let mut turned = square(2.0);
    turned.copy_within(9..12, 3);
    turned[9..12].copy_from_slice(&[1.0, 2.0, -1.0]);
    cases.shade(&lit(&[turned]), [0.0, 2.0, 0.0], up, AT_CENTRE)?;
    let mut many = [square(3.0); 16];
    for place in [0, 7, 15] {
        many[place] = square(2.5);
        cases.shade(&lit(&many), [0.0, 2.5, 0.0], up, AT_CENTRE)?;
        many[place] = square(3.0);
    }
    // Points beside the centre whose way to it is computed as 0, on both sides of the panel.
    for off in [1e-23, -1e-23, 1e-30, -1e-45] {
        for point in [[off, 0.0, 0.0], [0.0, off, 0.0], [off, off, -off]] {
            cases.shade(&lit(&[square(0.0)]), point, up, AT_CENTRE)?;
        }
    }
    Ok(())
}
