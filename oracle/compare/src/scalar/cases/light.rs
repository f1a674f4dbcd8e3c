//! Form factors, Fresnel, F0 and diffuse albedo: each word at its limits and just past them, and panels
//! that are chosen for what the clip or the sum makes of them.

use super::Case;
use crate::call::Call;
use crate::chosen::about;
use crate::judge::{Range, COSINE, DONE, POINT, UNIT};
use crate::light::panels::CHOSEN;
use crate::words;

/// Args that are well inside the domain.
pub fn sound(call: Call) -> Vec<u32> {
    words::bits(match call {
        Call::FormFactor => &[-1.0, -1.5, 2.0, 1.0, -1.0, 2.5, 1.5, 1.0, 2.0, -1.0, 1.25, -0.5],
        Call::Fresnel => &[0.25, 0.04, 0.5, 1.0],
        Call::F0 | Call::DiffuseAlbedo => &[0.75, 0.5, 0.25, 0.5, 0.125],
        _ => call.stray(),
    })
}

pub fn light() -> Vec<Case> {
    let mut cases = Vec::new();
    of_words(Call::FormFactor, &[POINT; 12], &mut cases);
    of_words(Call::Fresnel, &[COSINE, UNIT, UNIT, UNIT], &mut cases);
    for call in [Call::F0, Call::DiffuseAlbedo] {
        of_words(call, &[UNIT; 5], &mut cases);
    }
    cosines(&mut cases);
    for panel in CHOSEN {
        turned(panel, &mut cases);
    }
    cases
}

fn of_words(call: Call, ranges: &[Range], cases: &mut Vec<Case>) {
    for (i, &range) in ranges.iter().enumerate() {
        for (word, number) in about(range, DONE) {
            let mut args = sound(call);
            args[i] = word;
            cases.push(Case { call, args, number });
        }
    }
}

/// About 0 and 1, where the clamp turns.
fn cosines(cases: &mut Vec<Case>) {
    let mut cosines = vec![-1.0, -0.0, 0.5, 2.0, -10.0, 1e-45, 1e-8];
    cosines.extend([0.0f32, 1.0].iter().flat_map(|x| [x.next_down(), *x, x.next_up()]));
    for cosine in cosines {
        for f0 in [[0.0, -0.0, 1.0], [0.04; 3], [1.0, 0.5, 1e-45]] {
            let args = words::bits(&[&[cosine], &f0[..]].concat());
            cases.push(Case { call: Call::Fresnel, args, number: DONE });
        }
    }
}

/// A panel from each of its corners on, forth and back, upside down, and large and small.
fn turned(panel: [[f32; 3]; 4], cases: &mut Vec<Case>) {
    for scale in [1.0, -1.0, 50_000.0, 1e-4, 1e-9, 1e-30] {
        for turn in 0..4 {
            for back in [false, true] {
                let mut corners = panel;
                corners.rotate_left(turn);
                if back {
                    corners.reverse();
                }
                let corners = corners.concat().iter().map(|x| (x * scale).to_bits()).collect();
                cases.push(Case { call: Call::FormFactor, args: corners, number: DONE });
            }
        }
    }
}
