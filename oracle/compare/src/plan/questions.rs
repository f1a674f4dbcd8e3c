//! Random args that a call which asks takes on a plan.

use super::draw;
use super::judge::{asked, centre};
use super::model::Plan;
use crate::call::Call;
use crate::draw::{fit, within};
use crate::rng::Rng;
use crate::source::vec3;

/// A point about the plan, then whatever the call may ask with. The point is at no light's centre.
pub fn args(rng: &mut Rng, plan: &Plan, call: Call) -> Vec<u32> {
    let ranges = asked(call);
    loop {
        let point = draw::point(rng, plan).map(f32::from_bits);
        let mut args: Vec<u32> = Vec::new();
        for (i, &range) in ranges.iter().enumerate() {
            args.push(point.get(i).map_or_else(|| within(rng, range), |&x| fit(x, range)).to_bits());
        }
        if call == Call::Query {
            args[3] = rng.pick(&[f32::MAX, 1.0, 0.0, -f32::MAX]).to_bits();
            args.push(rng.word());
        }
        if !at_some_centre(plan, &args) {
            return args;
        }
    }
}

fn at_some_centre(plan: &Plan, point: &[u32]) -> bool {
    plan.lights.iter().any(|light| (centre(light) - vec3(point)).length() == 0.0)
}
