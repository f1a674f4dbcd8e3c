//! The one timing loop. Sides take turns over the same inputs. A side that has several calls runs them in the same
//! laps, so that the difference of two has little of what disturbs both.

use std::array::from_fn;
use std::hint::black_box;
use std::mem::swap;
use std::ops::Range;
use std::time::Instant;

/// Rounds of a table: in each every race has some turns, so that those of one race are far apart.
pub const ROUNDS: usize = 4;

/// Seconds of a race in a round, and its turns at most; it has one at least.
const SECONDS: f64 = 0.7;
const MOST_TURNS: usize = 250;

/// Seconds of a call in a lap: long beside a look at the clock, and so short that most laps are not disturbed.
const LAP: f64 = 1e-4;

/// Nanoseconds a call: each lap over the inputs by the least of its turns, and by the second least.
#[derive(Clone, Copy, Default)]
pub struct Time {
    pub least: f64,
    pub second: f64,
}

impl Time {
    /// How far the second least is off, in parts of the least.
    pub fn spread(self) -> f64 {
        ((self.second - self.least) / self.least).abs()
    }

    /// What is left without another call of the same side.
    pub fn less(self, other: Time) -> Time {
        Time { least: self.least - other.least, second: self.second - other.second }
    }
}

/// Cells of a table.
pub type Line = Vec<String>;

/// Calls that are timed side by side, and what is told of them.
pub trait Race {
    fn round(&mut self);
    fn lines(&self) -> Vec<Line>;
}

pub type Rows = Vec<Box<dyn Race>>;

struct Timed<const CALLS: usize, R, L> {
    run: R,
    sides: Vec<Side>,
    turns: usize,
    lines: L,
}

/// A race of calls that are numbered from 0, by sides, once all have run to warm up. `run` makes one of them on a range
/// of the inputs; `lines` tells the times of all.
pub fn race<const CALLS: usize>(
    sides: &[&'static [usize]],
    inputs: usize,
    mut run: impl FnMut(usize, Range<usize>) + 'static,
    lines: impl Fn([Time; CALLS]) -> Vec<Line> + 'static,
) -> Box<dyn Race> {
    let warm: [f64; CALLS] = from_fn(|call| seconds(&mut run, call, 0..inputs));
    let sides = sides.iter().map(|calls| Side::new(calls, &warm, inputs)).collect();
    let turns = (SECONDS / warm.iter().sum::<f64>()) as usize;
    Box::new(Timed { run, sides, turns: turns.clamp(1, MOST_TURNS), lines })
}

impl<const CALLS: usize, R: FnMut(usize, Range<usize>), L: Fn([Time; CALLS]) -> Vec<Line>> Race for Timed<CALLS, R, L> {
    fn round(&mut self) {
        for _ in 0..self.turns {
            self.sides.iter_mut().for_each(|side| side.turn(|call, range| seconds(&mut self.run, call, range)));
        }
    }

    fn lines(&self) -> Vec<Line> {
        let mut times = [Time::default(); CALLS];
        for (call, time) in self.sides.iter().flat_map(Side::times) {
            times[call] = time;
        }
        (self.lines)(times)
    }
}

/// Makes a call on each input.
#[inline(always)]
pub fn each<I, A>(inputs: &[I], mut call: impl FnMut(&I) -> A) {
    for input in inputs {
        black_box(call(black_box(input)));
    }
}

fn seconds(run: &mut impl FnMut(usize, Range<usize>), call: usize, range: Range<usize>) -> f64 {
    let start = Instant::now();
    run(call, range);
    start.elapsed().as_secs_f64()
}

pub struct Side {
    calls: &'static [usize],
    inputs: usize,
    /// Of each lap the seconds of all calls, where they were least together and second least.
    laps: Vec<[Vec<f64>; 2]>,
}

impl Side {
    /// Each call takes about so many seconds for all inputs.
    pub fn new(calls: &'static [usize], seconds: &[f64], inputs: usize) -> Side {
        let together: f64 = calls.iter().map(|&call| seconds[call]).sum();
        let laps = (together / calls.len() as f64 / LAP) as usize;
        let none = vec![f64::INFINITY; calls.len()];
        Side { calls, inputs, laps: vec![[none.clone(), none]; laps.clamp(1, inputs)] }
    }

    pub fn turn(&mut self, mut seconds: impl FnMut(usize, Range<usize>) -> f64) {
        let many = self.laps.len();
        let begin = |lap: usize| lap * self.inputs / many;
        let together = |times: &[f64]| times.iter().sum::<f64>();
        for (lap, kept) in self.laps.iter_mut().enumerate() {
            let range = begin(lap)..begin(lap + 1);
            let mut times: Vec<f64> = self.calls.iter().map(|&call| seconds(call, range.clone())).collect();
            for kept in kept {
                if together(&times) < together(kept) {
                    swap(kept, &mut times);
                }
            }
        }
    }

    pub fn times(&self) -> impl Iterator<Item = (usize, Time)> + '_ {
        self.calls.iter().enumerate().map(|(place, &call)| {
            let sum = |kept: usize| self.laps.iter().map(|lap| lap[kept][place]).sum::<f64>();
            let [least, second] = from_fn(|kept| sum(kept) * 1e9 / self.inputs as f64);
            (call, Time { least, second })
        })
    }
}
