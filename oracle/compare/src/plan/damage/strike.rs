//! Where a plan is struck, and what it then holds.

use crate::chosen::NOT_FINITE;
use crate::judge::{CAPSULE, PLANE};
use crate::plan::layout::*;
use crate::plan::lent::Table;
use crate::plan::model::{cutters_of, Plan};
use crate::rng::Rng;

/// Changes a word of the plan's table, or a corner of a light.
pub fn strike(rng: &mut Rng, plan: &Plan, table: &mut Table) {
    if !plan.lights.is_empty() && rng.one_in(16) {
        return flat_light(rng, plan, table);
    }
    let told = match rng.below(16) {
        0 => flatten(rng, plan, table),
        1 => other_kind(rng, plan),
        _ => None,
    };
    let (place, word) = told.unwrap_or_else(|| {
        let place = place(rng, plan);
        (place, word(rng, plan, table, place))
    });
    table.put(place, &[word]);
}

/// The places of the kinds of pieces and cutters that are in use.
fn kinds(plan: &Plan) -> Vec<usize> {
    let pieces = |section: Section, count: usize| (0..count).map(move |i| section.at(i) + KIND);
    let cutters = |records: std::ops::Range<usize>| records.map(|i| CUTTERS.at(i));
    pieces(PLANES, plan.planes.len())
        .chain(pieces(OBJECTS, plan.objects.len()))
        .chain(cutters(0..cutters_of(&plan.objects)))
        .chain(cutters(1_024 - cutters_of(&plan.planes)..1_024))
        .collect()
}

/// Takes the extent of some capsule for which one word does it.
fn flatten(rng: &mut Rng, plan: &Plan, table: &Table) -> Option<(usize, u32)> {
    let mut found = Vec::new();
    for at in kinds(plan) {
        let differs = |i: &usize| table.word(at + *i) != table.word(at + *i + 3);
        let differing: Vec<usize> = (1..4).filter(differs).collect();
        if table.word(at) == CAPSULE && differing.len() == 1 {
            found.push((at + differing[0] + 3, table.word(at + differing[0])));
        }
    }
    (!found.is_empty()).then(|| rng.pick(&found))
}

/// Moves the second or the fourth corner of some light to its first.
fn flat_light(rng: &mut Rng, plan: &Plan, table: &mut Table) {
    let at = LIGHTS.at(rng.below(plan.lights.len()));
    let first = [0, 1, 2].map(|i| table.word(at + i));
    table.put(at + rng.pick(&[3, 9]), &first);
}

/// Makes some piece one of a kind that its list does not have; often its words are sound for it.
fn other_kind(rng: &mut Rng, plan: &Plan) -> Option<(usize, u32)> {
    let planes = rng.one_in(2);
    let (section, count) = match planes {
        true => (PLANES, plan.planes.len()),
        false => (OBJECTS, plan.objects.len()),
    };
    let kind = if planes { rng.below(7) as u32 } else { PLANE };
    (count > 0).then(|| (section.at(rng.below(count)) + KIND, kind))
}

fn place(rng: &mut Rng, plan: &Plan) -> usize {
    if rng.one_in(20) {
        return rng.below(PLAN_WORDS);
    }
    let (objects, planes) = (cutters_of(&plan.objects), cutters_of(&plan.planes));
    let (section, used, words) = match rng.below(12) {
        0 => (COUNTS, 1, 4),
        1..=3 => (PLANES, plan.planes.len(), PLACE + 1),
        4..=6 => (OBJECTS, plan.objects.len(), PLACE + 1),
        7..=8 => (CUTTERS, objects, CUTTER_WORDS),
        9 => (CUTTERS, planes, CUTTER_WORDS),
        10 => (MATERIALS, plan.materials.len(), MATERIAL_WORDS),
        _ => (LIGHTS, plan.lights.len(), LIGHT_WORDS),
    };
    // Most often a record in use, sometimes the one after those.
    let record = match rng.below(10) {
        0 => used.min(section.records - 1),
        _ => rng.below(used.max(1)),
    };
    // Those of planes stand at the other end.
    let turned = section.first == CUTTERS.first && used == planes;
    let record = match turned {
        true => CUTTERS.records - 1 - record,
        false => record,
    };
    // Seldom a spare word.
    let words = if rng.one_in(12) { section.words } else { words };
    section.at(record) + rng.below(words)
}

/// A word for a place: any, or one that tells.
fn word(rng: &mut Rng, plan: &Plan, table: &Table, place: usize) -> u32 {
    let old = table.word(place);
    let limits = [10_000f32, -10_000.0, 1.5, -1.5, 1.0, 0.0, -0.0];
    let past = [
        10_000f32.next_up(),
        (-10_000f32).next_down(),
        1.5f32.next_up(),
        (-1.5f32).next_down(),
        -f32::from_bits(1),
        f32::MAX,
    ];
    let counts = [8, 9, 16, 17, 64, 65, 255, 256, 257, 1_023, 1_024, 1_025];
    match rng.below(12) {
        0 => rng.word(),
        1..=2 => rng.pick(&NOT_FINITE),
        3 => rng.pick(&limits).to_bits(),
        4 => rng.pick(&past).to_bits(),
        5 => old.wrapping_add(1),
        6 => old.wrapping_sub(1),
        7 => old ^ 1 << rng.below(32),
        8 => rng.below(9) as u32,
        9 => rng.pick(&counts),
        10 => plan.materials.len() as u32,
        _ => 0,
    }
}
