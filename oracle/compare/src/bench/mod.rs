//! Times, ours beside the Rust's in one run, as tables in Markdown. Ours are those of the exported calls, so they have
//! the reading, testing and writing of bytes in them.

mod asks;
mod race;
pub mod rooms;
mod table;
#[cfg(test)]
mod tests;

pub use race::{each, race, Race, Rows, Time, ROUNDS};
pub use table::{alone, pair, single, REPEATED};

use crate::progress::grouped;
use crate::{light, plan, scalar, tree};
use std::env::consts::ARCH;
use std::fs::read_to_string;
use table::Table;

/// Inputs of a loop, all different: more than a branch predictor learns.
pub const INPUTS: usize = 8_192;

const TIMES: &str = "ours | theirs | ratio | spread";

const TABLES: [Table; 2] = [
    Table {
        name: "values",
        has: "Calls on `args` and `out` alone, nanoseconds. Theirs is the bare method.",
        columns: ["call", TIMES],
        rows: &[scalar::bench::rows, light::bench::rows],
    },
    Table {
        name: "tables",
        has: "Calls that write tables, and load and test alone, nanoseconds. A query of the empty plan is the load.",
        columns: ["call", TIMES],
        rows: &[plan::bench::rows, tree::bench::rows],
    },
];

pub fn run() -> Result<(), String> {
    println!("{}\n\n{}", machine(), how());
    tables().into_iter().for_each(Table::tell);
    Ok(())
}

/// One table, by its name.
pub fn run_one(name: &str) -> Result<(), String> {
    let table = tables().into_iter().find(|table| table.name == name);
    let names: Vec<&str> = tables().iter().map(|table| table.name).collect();
    let table = table.ok_or_else(|| format!("there is no table `{name}`, but {}", names.join(", ")))?;
    println!("{}", machine());
    table.tell();
    Ok(())
}

fn tables() -> Vec<&'static Table> {
    TABLES.iter().chain(&asks::TABLES).collect()
}

/// Where the times are taken, and of which code.
fn machine() -> String {
    let read = |file: &str| read_to_string(file).unwrap_or_default();
    let (info, load) = (read("/proc/cpuinfo"), read("/proc/loadavg"));
    // An Arm processor has numbers there and no name.
    let fields = ["model name", "CPU implementer", "CPU part"];
    let field = |name| info.lines().find(|line| line.starts_with(name)).map(|line| line.replace("\t: ", " "));
    let processor = fields.into_iter().filter_map(field).collect::<Vec<_>>().join(", ");
    let processor = processor.trim_start_matches("model name ");
    let library = match ARCH {
        "x86_64" => "x86-64 code".to_string(),
        _ => format!("the same LLVM module compiled for {ARCH}"),
    };
    let load = load.split(' ').next().unwrap_or_default();
    format!("Processor: {processor}. Our library: {library}. Load average before: {load}.")
}

/// What the tables have in common.
fn how() -> String {
    let [inputs, shadows, places] = [INPUTS, asks::SHADOWS, asks::PLACES].map(grouped);
    let [list_marches, list_places] = [asks::LIST_MARCHES, asks::LIST_PLACES].map(grouped);
    format!(
        "\
A loop has {inputs} inputs from a fixed seed, all different; {shadows} shadows, or {places} places for light, as each
makes many evaluations; by the list in the classroom {list_marches} marches or {list_places} places. Ours and the Rust's
take turns over the same inputs, in {ROUNDS} rounds of the table, in laps of about 0.1 milliseconds; each lap counts by
the least of its turns. 'Spread' is how far off the second least is, of ours or of theirs, whichever is further.

Calls that ask load the tables and test what they read each time; the Rust has its scene at hand. 'Load and test' is a
call that does next to nothing else, run in the same laps: by the tree a query with a bound below every distance, which
pops the root and ends; light that all panels turn their backs to; else a shadow of no length. 'Rest' is the whole call
less that; 'ratio' and 'spread' are the rest's, beside theirs.

Rooms of pieces have all kinds but planes, to 3 m, without blend, in 20 m each way beneath 4 panels. The classroom has
240 pieces, 6 planes and 16 panels; half cut, every second piece has one to three cutters."
    )
}
