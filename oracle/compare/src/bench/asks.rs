//! Calls that ask, by the tree or by the list: the whole call, what of it is load and test, and the source's.

use super::race::{each, race, Race, Rows, Time};
use super::rooms::{self, Args, Inputs, Inputs::Drawn, Inputs::Survey, Room};
use super::table::{figure, percent, Table};
use super::INPUTS;
use crate::call::Call;
use crate::judge::DONE;
use crate::plan::{source, Lent};
use crate::progress::through;
use crate::source::{material, vec3};
use crate::viewer;
use interflect::scene::Scene;
use interflect::shade;
use interflect::trace::{soft_shadow, MAX_STEPS};
use std::hint::black_box;

/// Shadows of a loop, and places: from each of these, light marches to every panel.
pub const SHADOWS: usize = INPUTS / 2;
pub const PLACES: usize = INPUTS / 8;

/// Marches and places of a loop by the list: each evaluates all pieces many times.
pub const LIST_MARCHES: usize = INPUTS / 8;
pub const LIST_PLACES: usize = INPUTS / 128;

const TIMES: &str = "whole call | load and test | rest | theirs | ratio | whole ratio | spread";

/// A call by the tree (1) or by the list (0), and the source's.
#[derive(Clone, Copy)]
struct Ask<F> {
    call: Call,
    tree: u32,
    inputs: Inputs,
    theirs: F,
}

/// The source's answer, of which the word is given that `told` names.
trait Theirs: Fn(&Scene, &Args) -> u32 + Copy + 'static {}
impl<F: Fn(&Scene, &Args) -> u32 + Copy + 'static> Theirs for F {}

pub const TABLES: [Table; 7] = [
    Table {
        name: "query",
        has: "A query by the tree, nanoseconds.",
        columns: ["plan | popped | evaluated", TIMES],
        rows: &[|| in_rooms(Ask { call: Call::Query, tree: 1, inputs: Drawn(INPUTS), theirs: query })],
    },
    Table {
        name: "list",
        has: "A query by the plain list, nanoseconds.",
        columns: ["plan | evaluated", TIMES],
        rows: &[|| in_rooms(Ask { call: Call::Query, tree: 0, inputs: Drawn(INPUTS), theirs: query })],
    },
    Table {
        name: "trace",
        has: "A ray by the tree, nanoseconds; theirs is without the normal of a hit, as ours is.",
        columns: ["plan | evaluated", TIMES],
        rows: &[|| in_rooms(Ask { call: Call::Trace, tree: 1, inputs: Drawn(INPUTS), theirs: march })],
    },
    Table {
        name: "soft_shadow",
        has: "A shadow by the tree, from a place to a panel, nanoseconds.",
        columns: ["plan | evaluated", TIMES],
        rows: &[|| in_rooms(Ask { call: Call::SoftShadow, tree: 1, inputs: Drawn(SHADOWS), theirs: shadow })],
    },
    Table {
        name: "direct_diffuse",
        has: "Light on a place by the tree, nanoseconds.",
        columns: ["plan | evaluated", TIMES],
        rows: &[|| in_rooms(Ask { call: Call::DirectDiffuse, tree: 1, inputs: Drawn(PLACES), theirs: diffuse })],
    },
    Table {
        name: "survey",
        has: "A survey of 64 by 64 points, a call of direct_diffuse by the tree for each, milliseconds for all.",
        columns: ["plan | evaluated a point", TIMES],
        rows: &[|| in_rooms(Ask { call: Call::DirectDiffuse, tree: 1, inputs: Survey, theirs: diffuse })],
    },
    Table {
        name: "classroom",
        has: "In the classroom, what the tables above have not, nanoseconds.",
        columns: ["call | evaluated", TIMES],
        rows: &[
            || in_classroom(Ask { call: Call::Direct, tree: 1, inputs: Drawn(PLACES), theirs: direct }),
            || in_classroom(Ask { call: Call::Trace, tree: 0, inputs: Drawn(LIST_MARCHES), theirs: march }),
            || in_classroom(Ask { call: Call::SoftShadow, tree: 0, inputs: Drawn(LIST_MARCHES), theirs: shadow }),
            || in_classroom(Ask { call: Call::DirectDiffuse, tree: 0, inputs: Drawn(LIST_PLACES), theirs: diffuse }),
            || in_classroom(Ask { call: Call::Direct, tree: 0, inputs: Drawn(LIST_PLACES), theirs: direct }),
        ],
    },
];

fn in_rooms(ask: Ask<impl Theirs>) -> Rows {
    let rooms = through("bench", rooms::all(), "rooms tried");
    rooms.map(|room| row(room.name.clone(), room, ask)).collect()
}

fn in_classroom(ask: Ask<impl Theirs>) -> Rows {
    let by = ["list", "tree"][ask.tree as usize];
    let name = ask.call.name().trim_start_matches("viewer_");
    vec![row(format!("{name} by the {by}"), rooms::classroom(), ask)]
}

/// What is counted; the whole call and its load and test, which are one side, beside the source's.
fn row(name: String, mut room: Room, ask: Ask<impl Theirs>) -> Box<dyn Race> {
    let inputs = room.inputs(ask.call, ask.inputs);
    let (still_call, still) = still(ask.call, ask.tree, &inputs);
    room.by(ask.tree);
    let counts = counts(&mut room, &ask, &inputs);
    let many = inputs.len();
    let unit = match ask.inputs {
        Drawn(_) => 1.0,
        Survey => 1e6 / many as f64,
    };
    let Room { mut lent, scene, .. } = room;
    let run = move |call, lap| match call {
        0 => each(&inputs[lap], |args| ours(&mut lent, ask.call, args)),
        1 => each(&still[lap], |args| ours(&mut lent, still_call, args)),
        _ => each(&inputs[lap], |args| (ask.theirs)(&scene, args)),
    };
    race(&[&[0, 1], &[2]], many, run, move |[whole, loaded, theirs]: [Time; 3]| {
        let rest = whole.less(loaded);
        let mut line = vec![name.clone()];
        line.extend(counts.iter().copied().map(figure));
        line.extend([whole, loaded, rest, theirs].map(|time| figure(time.least / unit)));
        line.extend([rest, whole].map(|time| figure(time.least / theirs.least)));
        line.push(percent(rest.spread().max(theirs.spread())));
        vec![line]
    })
}

fn ours(lent: &mut Lent, call: Call, args: &Args) {
    let words = call.args_words();
    lent.args.resize(4 * words);
    lent.args.put(0, &args[..words]);
    assert_eq!(viewer::lend(call, lent), DONE, "all is sound here");
}

/// A call that loads and tests the same and does next to nothing: by the tree a query with a bound below every
/// distance, which pops the root and ends; light that all panels turn their backs to; else a shadow with no way to go.
pub fn still(call: Call, tree: u32, inputs: &[Args]) -> (Call, Vec<Args>) {
    let (call, change): (Call, fn(&mut Args)) = match call {
        Call::Query if tree == 1 => (call, |args| args[3] = (-1e30f32).to_bits()),
        Call::Direct | Call::DirectDiffuse => (call, |args| args[1] = rooms::ABOVE_ALL.to_bits()),
        _ => (Call::SoftShadow, |args| args[3..].fill(0)),
    };
    let mut still = inputs.to_vec();
    still.iter_mut().for_each(change);
    (call, still)
}

/// What is counted, on average over the inputs. Both sides do the same work, but for few places whose light the arc
/// cosine decides.
fn counts(room: &mut Room, ask: &Ask<impl Theirs>, inputs: &[Args]) -> Vec<f64> {
    let (told, counted) = told(ask.call, ask.tree);
    let mut sums = vec![0.0; counted.len()];
    let mut unlike = 0;
    for args in inputs {
        ours(&mut room.lent, ask.call, args);
        unlike += usize::from(room.lent.out.word(told) != (ask.theirs)(&room.scene, args));
        for (sum, &word) in sums.iter_mut().zip(counted) {
            *sum += f64::from(room.lent.out.word(word));
        }
    }
    assert!(100 * unlike < inputs.len(), "{} does other work than the source", ask.call.name());
    sums.iter().map(|sum| sum / inputs.len() as f64).collect()
}

/// The word of `out` that the source tells too, and those that are counts.
fn told(call: Call, tree: u32) -> (usize, &'static [usize]) {
    match call {
        Call::Query if tree == 1 => (0, &[2, 3]),
        Call::Query => (0, &[3]),
        Call::Trace => (6, &[6]),
        Call::SoftShadow => (1, &[1]),
        _ => (3, &[3]),
    }
}

fn query(scene: &Scene, args: &Args) -> u32 {
    let hit = source::query(scene, vec3(args), float(args, 3), args[4]);
    black_box(hit).d.to_bits()
}

/// The source's `trace`, by document 01, without the normal of a hit: ours has none.
fn march(scene: &Scene, args: &Args) -> u32 {
    let (from, way, tmax) = (vec3(args), vec3(&args[3..]), float(args, 7));
    let (mut t, mut count) = (float(args, 6), 0);
    while count < MAX_STEPS {
        let point = from + way * t;
        let near = scene.dist_mat(point);
        count += 1;
        if near.d < 1e-4 * t.max(1.0) {
            black_box((t, point, near.mat));
            break;
        }
        t += near.d;
        if t > tmax {
            break;
        }
    }
    count
}

fn shadow(scene: &Scene, args: &Args) -> u32 {
    let [tmin, tmax, k] = [6, 7, 8].map(|i| float(args, i));
    black_box(soft_shadow(scene, vec3(args), vec3(&args[3..]), tmin, tmax, k)).1
}

fn diffuse(scene: &Scene, args: &Args) -> u32 {
    black_box(shade::direct_diffuse(scene, vec3(args), vec3(&args[3..]), vec3(&args[6..]))).1
}

fn direct(scene: &Scene, args: &Args) -> u32 {
    black_box(shade::direct(scene, vec3(args), vec3(&args[3..]), vec3(&args[6..]), &material(&args[9..]))).1
}

fn float(args: &Args, i: usize) -> f32 {
    f32::from_bits(args[i])
}
