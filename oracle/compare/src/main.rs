//! Compares our library with the source it is ported from.

mod bench;
mod call;
mod chosen;
mod draw;
mod fault;
mod gate;
mod judge;
mod light;
mod plan;
mod progress;
mod rng;
mod scalar;
mod source;
mod tree;
mod viewer;
mod words;

use std::env;
use std::process::ExitCode;

const USAGE: &str = "\
compare gate          the comparisons of every change, some seconds
compare sweep root    every f32 from 0 to f32::MAX
compare sweep acos    every f32 from -1 to 1
compare plan [PART]   calls on plans, at length
compare tree [PART]   trees built, offered and searched, at length
compare light [PART]  marches and light in furnished rooms, at length
compare stack         bytes of stack that each call uses
compare bench [TABLE] times, ours beside the Rust's
compare store FILE    writes the answers that are replayed without Rust
compare store light FILE  those of form factors and surfaces";

fn main() -> ExitCode {
    let args: Vec<String> = env::args().skip(1).collect();
    let args: Vec<&str> = args.iter().map(String::as_str).collect();
    let result = match args[..] {
        ["gate"] => gate::run(),
        ["sweep", which] => scalar::patterns::sweep(which),
        ["plan"] => gate::run_parts("plan", &plan::LONG),
        ["plan", part] => gate::run_one("plan", &plan::LONG, part),
        ["tree"] => gate::run_parts("tree", &tree::LONG),
        ["tree", part] => gate::run_one("tree", &tree::LONG, part),
        ["light"] => gate::run_parts("light", &light::LONG),
        ["light", part] => gate::run_one("light", &light::LONG, part),
        ["stack"] => {
            tree::stack::tell();
            Ok(())
        }
        ["bench"] => bench::run(),
        ["bench", table] => bench::run_one(table),
        ["store", file] => scalar::store::run(file),
        ["store", "light", file] => scalar::store::run_light(file),
        _ => Err(format!("usage:\n{USAGE}")),
    };
    match result {
        Ok(()) => ExitCode::SUCCESS,
        Err(what) => {
            eprintln!("{what}");
            ExitCode::FAILURE
        }
    }
}
