//! Chosen cases, each with the number that it must get: document 01's rows, the limits of each word,
//! degenerate shapes and panels.

pub mod degenerate;
pub mod light;
pub mod limits;
pub mod rows;

use super::answer::answer;
use super::check::expect;
use crate::call::{Call, OUT_BYTES};
use crate::words;
use degenerate::degenerate;
use light::light;
use limits::limits;
use rows::rows;

pub struct Case {
    pub call: Call,
    pub args: Vec<u32>,
    pub number: u32,
}

pub fn run() -> Result<String, String> {
    let rows = rows();
    for row in &rows {
        let have = answer(row.case.call, &row.case.args)[0];
        if have != row.answer {
            let (have, want) = (words::show(have), words::show(row.answer));
            return Err(format!("{}: the source gives {have}, not {want}", row.name));
        }
        hold(&row.case)?;
    }
    let (limits, degenerate, light) = (limits(), degenerate(), light());
    for case in limits.iter().chain(&degenerate).chain(&light) {
        hold(case)?;
    }
    let (limits, degenerate, light) = (limits.len(), degenerate.len(), light.len());
    Ok(format!("{} rows, {limits} at limits, {degenerate} degenerate, {light} of light", rows.len()))
}

fn hold(case: &Case) -> Result<(), String> {
    let mut out = [0; OUT_BYTES];
    expect(case.call, &words::bytes(&case.args), &mut out, case.number)
}

/// A kind's words and a point, as args of viewer_prim_dist. What is not given is 0.
pub fn prim_args(kind: u32, shape: &[f32], point: [f32; 3]) -> Vec<u32> {
    let mut args = vec![kind];
    args.extend(words::bits(shape));
    args.resize(9, 0);
    args.extend(words::bits(&point));
    args
}

/// The case of either call on a primitive; `args` are those of viewer_prim_dist.
pub fn prim_case(call: Call, mut args: Vec<u32>, number: u32) -> Case {
    args.truncate(call.args_words());
    Case { call, args, number }
}
