//! Tables in Markdown, and how figures stand in them.

use super::race::{each, race, Line, Race, Rows, Time, ROUNDS};
use crate::progress::{grouped, Progress};

pub struct Table {
    pub name: &'static str,
    pub has: &'static str,
    /// The columns before the times, and those of times.
    pub columns: [&'static str; 2],
    pub rows: &'static [fn() -> Rows],
}

impl Table {
    pub fn tell(&self) {
        let mut races: Rows = self.rows.iter().flat_map(|rows| rows()).collect();
        let progress = Progress::new(self.name, ROUNDS * races.len(), "rounds");
        for _ in 0..ROUNDS {
            for race in &mut races {
                race.round();
                progress.add(1);
            }
        }
        let columns = self.columns.join(" | ");
        println!("\n{}\n\n| {columns} |\n|{}", self.has, "---|".repeat(columns.split('|').count()));
        for line in races.iter().flat_map(|race| race.lines()) {
            println!("| {} |", line.join(" | "));
        }
    }
}

/// For calls that do the same each time.
pub const REPEATED: [(); 1_024] = [(); 1_024];

/// A call of ours beside the Rust's.
pub fn pair<I: 'static, A, B>(
    name: &str,
    inputs: Vec<I>,
    mut ours: impl FnMut(&I) -> A + 'static,
    mut theirs: impl FnMut(&I) -> B + 'static,
) -> Box<dyn Race> {
    let (name, many) = (name.to_string(), inputs.len());
    let run = move |call, lap| match call {
        0 => each(&inputs[lap], &mut ours),
        _ => each(&inputs[lap], &mut theirs),
    };
    race(&[&[0], &[1]], many, run, move |[ours, theirs]: [Time; 2]| {
        let spread = ours.spread().max(theirs.spread());
        let [ours, theirs, ratio] = [ours.least, theirs.least, ours.least / theirs.least].map(figure);
        vec![vec![name.clone(), ours, theirs, ratio, percent(spread)]]
    })
}

/// A call of ours that does the same each time, and that the Rust has nothing to put beside.
pub fn single<A>(name: &'static str, mut ours: impl FnMut() -> A + 'static) -> Box<dyn Race> {
    let run = move |_, lap| each(&REPEATED[lap], |_| ours());
    race(&[&[0]], REPEATED.len(), run, move |[ours]: [Time; 1]| vec![alone(name, ours)])
}

/// A time of ours alone.
pub fn alone(name: &str, ours: Time) -> Line {
    vec![name.to_string(), figure(ours.least), String::new(), String::new(), percent(ours.spread())]
}

/// Three digits or more: 0.81, 15.7, 312, 22,288.
pub fn figure(x: f64) -> String {
    match x {
        ..0.0 => format!("-{}", figure(-x)),
        ..9.995 => format!("{x:.2}"),
        ..99.95 => format!("{x:.1}"),
        _ => grouped(x.round() as usize),
    }
}

pub fn percent(x: f64) -> String {
    format!("{:.1}%", 100.0 * x)
}
