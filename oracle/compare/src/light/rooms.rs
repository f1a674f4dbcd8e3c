//! Furnished rooms, asked from many places by the tree and by the list: hits, points, materials, counts,
//! visibilities and radiances as the source's. From each place every panel's form factor is asked for too,
//! and a ray is sent at the panels themselves.

use super::emitter::{check as emitter, rays};
use super::places::{place, Place};
use super::room::room;
use crate::call::{Call, OUT_BYTES};
use crate::judge::{AT_CENTRE, DONE, TOO_DEEP};
use crate::plan::check::{check, check_in};
use crate::plan::model::Plan;
use crate::plan::points::Asking;
use crate::progress::through;
use crate::rng::Rng;
use crate::scalar::check::check as check_scalar;
use crate::tree::make::{self, Form, Slack};
use crate::tree::{judged, source};
use crate::words;
use interflect::ltc::{frame, to_local};
use interflect_formula::differences::{met, Met};

#[derive(Default)]
struct Tally {
    asked: usize,
    hits: usize,
    /// Marches that used up what they may evaluate.
    spent: usize,
    dark: usize,
    half: usize,
    lit: usize,
    /// Radiances that are no numbers, or infinite.
    odd: usize,
    at_centre: usize,
    /// Answers by the tree that are not those by the list.
    other: usize,
    factors: usize,
    emitters: usize,
    evaluations: u64,
}

pub fn run(rooms: usize, points: usize) -> Result<String, String> {
    let mut rng = Rng::new(64);
    let mut tally = Tally::default();
    let before = met();
    for i in through("rooms", 0..rooms, "rooms") {
        let plan = room(&mut rng);
        of_room(&mut rng, &plan, i, points, &mut tally)?;
    }
    let Met { sixth, no_way } = met();
    let (sixth, no_way) = (sixth - before.sixth, no_way - before.no_way);
    let Tally { asked, hits, spent, dark, half, lit, odd, at_centre, other, factors, emitters, evaluations } = tally;
    let line = format!(
        "{rooms} rooms from {points} places, {asked} answers by tree and list, each the source's \
         ({other} not the same by both, {evaluations} evaluations); {hits} hits, {spent} marches to their end; \
         {dark} shadows dark, {half} half; {lit} places lit, {odd} with no number, {at_centre} at a centre; \
         {factors} form factors, {emitters} panels hit; {sixth} sixth corners, {no_way} representative points \
         at no distance"
    );
    let many = rooms * points;
    let few = [hits, spent, dark, half, lit, at_centre, emitters].iter().any(|&n| n < many / 100);
    if few || sixth.min(no_way) < many as u64 / 2_000 {
        return Err(format!("badly drawn: {line}"));
    }
    Ok(line)
}

fn of_room(rng: &mut Rng, plan: &Plan, shift: usize, points: usize, tally: &mut Tally) -> Result<(), String> {
    let mut asking = Asking::new(plan, shift);
    // By the list alone where the tree would be too deep.
    let trees: &[u32] = match check(Call::Build, &mut asking.lent)? {
        TOO_DEEP => &[0],
        _ => &[0, 1],
    };
    if trees.len() == 2 {
        if rng.one_in(3) {
            // Another tree than what is built.
            let boxes = source::boxes(&asking.scene.objects);
            let (leaf, most) = (1 + rng.below(8), rng.unit());
            asking.lent.stand(&make::tree(rng, &boxes, Form::Random(leaf), Slack::Some(most)));
        }
        asking.scene.bvh = judged::for_the_source(&asking.lent, &asking.scene.objects);
    }
    for _ in 0..points {
        let place = place(rng, &asking.scene);
        let questions = [place.rays(rng, &asking.scene), place.shading(rng)].concat();
        for (call, args) in questions {
            ask(&mut asking, trees, call, &args, tally)?;
        }
        factors(&asking, &place, tally)?;
        panels(rng, plan, &asking, tally)?;
    }
    Ok(())
}

fn ask(asking: &mut Asking, trees: &[u32], call: Call, args: &[u32], tally: &mut Tally) -> Result<(), String> {
    asking.lent.args(args);
    let mut answers = Vec::new();
    for &tree in trees {
        asking.lent.tree = tree;
        asking.scene.use_bvh = tree == 1;
        let sent = check_in(&asking.scene, call, &mut asking.lent)?;
        assert!(matches!(sent, DONE | AT_CENTRE), "rooms and places are drawn sound");
        tally.asked += 1;
        let out: Vec<u32> = (0..call.named_words()).map(|i| asking.lent.out.word(i)).collect();
        tally.take(call, sent, &out);
        answers.push(out);
    }
    tally.other += usize::from(answers.len() == 2 && answers[0] != answers[1]);
    Ok(())
}

impl Tally {
    fn take(&mut self, call: Call, sent: u32, out: &[u32]) {
        let f = |i: usize| f32::from_bits(out[i]);
        let count = *out.last().unwrap();
        self.evaluations += u64::from(count);
        self.at_centre += usize::from(sent == AT_CENTRE);
        match call {
            Call::Trace => {
                self.hits += out[0] as usize;
                self.spent += usize::from(count == 128);
            }
            Call::SoftShadow => {
                self.dark += usize::from(f(0) == 0.0);
                self.half += usize::from(f(0) > 0.0 && f(0) < 1.0);
                self.spent += usize::from(count == 96);
            }
            _ => {
                self.lit += usize::from((0..3).any(|i| f(i) > 0.0));
                self.odd += usize::from((0..3).any(|i| !f(i).is_finite()));
            }
        }
    }
}

/// The form factor of every panel from the place.
fn factors(asking: &Asking, place: &Place, tally: &mut Tally) -> Result<(), String> {
    let (tangent, other) = frame(place.normal);
    for light in &asking.scene.lights {
        let local = to_local(&light.verts, place.point, tangent, other, place.normal);
        let args: Vec<u32> = local.iter().flat_map(|v| [v.x, v.y, v.z].map(f32::to_bits)).collect();
        let sent = check_scalar(Call::FormFactor, &words::bytes(&args), &mut [0; OUT_BYTES])?;
        assert_eq!(sent, DONE, "no local corner is too far");
        tally.factors += 1;
    }
    Ok(())
}

/// A ray at the panels.
fn panels(rng: &mut Rng, plan: &Plan, asking: &Asking, tally: &mut Tally) -> Result<(), String> {
    let lights = words::bytes(&plan.lights.concat());
    let ray = rays::ray(rng, &asking.scene.lights);
    let mut out = [0; OUT_BYTES];
    emitter::check(&lights, &words::bytes(&words::bits(&ray)), &mut out)?;
    tally.emitters += words::word(&out, 0) as usize;
    Ok(())
}
