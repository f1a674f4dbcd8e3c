//! The words of lights that are in the plan.

use super::Cases;
use crate::chosen::about;
use crate::judge::{COORD, DONE, NO_ROOM};
use crate::plan::judge::EMISSION;
use crate::plan::layout::*;
use crate::plan::model::Plan;
use crate::plan::sound;

/// Each word of the last of one, two and sixteen lights: refused by the calls that test lights, of no
/// importance to the others.
pub fn run(cases: &mut Cases) -> Result<(), String> {
    for lights in [1, 2, LIGHTS.records] {
        cases.plan(&Plan { lights: vec![sound::light(); lights], ..sound::plan() });
        let full = lights == LIGHTS.records;
        for i in 0..LIGHT_WORDS {
            let range = if i < 12 { COORD } else { EMISSION };
            for (word, number) in about(range, DONE) {
                cases.every_call(&[(LIGHTS.at(lights - 1) + i, word)], |call| match call.enters() {
                    Some(List::Lights) if full => NO_ROOM,
                    _ if call.tests_lights() => number,
                    _ => DONE,
                })?;
            }
        }
    }
    cases.plan(&sound::plan());
    Ok(())
}
