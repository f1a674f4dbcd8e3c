//! Capsules and lights of no extent.

use super::{entry, Cases};
use crate::call::Call;
use crate::judge::{CAPSULE, DONE, NO_EXTENT, WRONG_KIND};
use crate::plan::layout::List;
use crate::plan::model::{Light, Piece, Prim};
use crate::plan::sound;
use crate::words;

/// Ends that differ by a step: where its square is computed as 0, the capsule gets 4, as a piece
/// and as a cutter, given and in the plan.
pub(super) fn capsules(cases: &mut Cases) -> Result<(), String> {
    let steps = [(0.0, NO_EXTENT), (f32::from_bits(1), NO_EXTENT), (1e-23, NO_EXTENT), (3e-23, DONE), (1.0, DONE)];
    for (step, number) in steps {
        for axis in 0..3 {
            let mut ends = [0.0; 7];
            ends[3 + axis] = step;
            let capsule = Prim::new(CAPSULE, &[&words::bits(&ends)[..], &[0]].concat());
            for list in [List::Planes, List::Objects] {
                let mut cut = sound::piece(sound::kind(list), &[0, 2]);
                cut.cutters[1] = capsule;
                let mut own = sound::piece(CAPSULE, &[0]);
                own.prim = capsule;
                let wrong = if list == List::Planes && number == DONE { WRONG_KIND } else { number };
                for (piece, number) in [(cut, number), (own, wrong)] {
                    cases.plan(&sound::plan());
                    cases.args(&piece.args(|| 0));
                    cases.hold(entry(list), &[], &[], number)?;
                    in_the_plan(list, piece, number, cases)?;
                }
            }
        }
    }
    cases.plan(&sound::plan());
    Ok(())
}

fn in_the_plan(list: List, piece: Piece, number: u32, cases: &mut Cases) -> Result<(), String> {
    let mut plan = sound::plan();
    match list {
        List::Planes => plan.planes.push(piece),
        _ => plan.objects.push(piece),
    }
    cases.plan(&plan);
    cases.every_call(&[], |call| if call.tests().contains(&list) { number } else { DONE })
}

/// Lights some of whose edges are computed as nothing, with the number that each gets.
pub fn panels() -> Vec<(Light, u32)> {
    // The second and the fourth corner; the first is at 0, the third anywhere.
    let edges = [
        ([0.0; 3], [0.0, 1.0, 0.0], NO_EXTENT),
        ([1.0, 0.0, 0.0], [0.0; 3], NO_EXTENT),
        ([0.0; 3], [0.0; 3], NO_EXTENT),
        ([1.0, 0.0, 0.0], [0.0, 1.0, 0.0], DONE),
        ([1.0, 2.0, -3.0], [1.0, 2.0, -3.0], NO_EXTENT),
        ([1.0, 2.0, -3.0], [-2.0, -4.0, 6.0], NO_EXTENT),
        // Edges whose computed square is 0 beside one that is large.
        ([1e-23, 0.0, 0.0], [0.0, 10_000.0, 0.0], NO_EXTENT),
        ([0.0, 10_000.0, 0.0], [0.0, 0.0, 1e-23], NO_EXTENT),
        ([3e-23, 0.0, 0.0], [0.0, 10_000.0, 0.0], DONE),
        // Squares that are not 0, of a cross product whose square is.
        ([1e-15, 0.0, 0.0], [0.0, 1e-15, 0.0], NO_EXTENT),
        ([1e-10, 0.0, 0.0], [0.0, 1e-10, 0.0], DONE),
        ([1e-22, 0.0, 0.0], [0.0, 0.0, 1e-22], NO_EXTENT),
    ];
    let mut panels = Vec::new();
    for (e1, e2, number) in edges {
        for third in [[0.0; 3], [1.0, 1.0, 1.0], e1, e2] {
            for (e1, e2) in [(e1, e2), (e2, e1)] {
                let words = [[0.0; 3], e1, third, e2, [1.0; 3]].concat();
                panels.push((std::array::from_fn(|i| f32::to_bits(words[i])), number));
            }
        }
    }
    panels
}

/// These given and in the plan.
pub(super) fn lights(cases: &mut Cases) -> Result<(), String> {
    for (light, number) in panels() {
        cases.plan(&sound::plan());
        cases.args(&light);
        cases.hold(Call::AddLight, &[], &[], number)?;
        let mut plan = sound::plan();
        plan.lights.push(light);
        cases.plan(&plan);
        cases.every_call(&[], |call| if call.tests_lights() { number } else { DONE })?;
    }
    cases.plan(&sound::plan());
    Ok(())
}
