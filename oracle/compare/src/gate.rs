//! The comparisons that run with every change: seconds, not minutes.

use crate::progress::through;
use crate::{light, plan, scalar, tree};
use std::time::Instant;

/// A comparison: a line that says what was compared, or the first difference.
pub type Part = (&'static str, fn() -> Result<String, String>);

pub fn run() -> Result<(), String> {
    run_parts("gate", &[&scalar::GATE[..], &plan::GATE, &tree::GATE, &light::GATE].concat())
}

/// One of the parts.
pub fn run_one(whole: &'static str, parts: &[Part], name: &str) -> Result<(), String> {
    let part = parts.iter().find(|part| part.0 == name);
    let part = part.ok_or_else(|| format!("there is no part `{name}`"))?;
    run_parts(whole, &[*part])
}

pub fn run_parts(whole: &'static str, parts: &[Part]) -> Result<(), String> {
    let start = Instant::now();
    for (name, part) in through(whole, parts, "parts") {
        let start = Instant::now();
        let line = part().map_err(|what| format!("{name}: {what}"))?;
        let seconds = start.elapsed().as_secs_f32();
        println!("{name}: {line} ({seconds:.1} s)");
    }
    let seconds = start.elapsed().as_secs_f32();
    println!("{whole}: no difference ({seconds:.1} s)");
    Ok(())
}
