//! Runs over the patterns of a float: a sample for the gate, and the long ones over every pattern.

use super::{acos, root};
use crate::progress::Progress;
use std::ops::Range;
use std::thread;
use std::time::Instant;

/// A sample of the patterns from 0 to `last`, the ends of that range and both ends of the subnormal numbers.
pub fn sample(last: u32, stride: usize) -> impl Iterator<Item = u32> {
    let ends = (0..4096).flat_map(move |i| [i, last - i, f32::MIN_POSITIVE.to_bits() - 2048 + i]);
    (0..=last).step_by(stride).chain(ends)
}

/// One of the long runs.
pub fn sweep(which: &str) -> Result<(), String> {
    let start = Instant::now();
    let line = match which {
        "root" => root::sweep()?,
        "acos" => acos::sweep()?,
        _ => return Err(format!("there is no sweep `{which}`")),
    };
    let seconds = start.elapsed().as_secs_f32();
    println!("{line} ({seconds:.1} s)");
    Ok(())
}

/// Patterns between two looks at the clock.
const CHUNK: u32 = 1 << 20;

/// Gives each of 0 to `count - 1` to `each`, the two halves at once, in a thread of its own each and
/// with a state of its own.
pub fn halves<T: Default + Send>(
    run: &'static str,
    count: u32,
    each: impl Fn(&mut T, u32) -> Result<(), String> + Sync,
) -> Result<[T; 2], String> {
    let progress = Progress::new(run, count as usize, "patterns");
    let half = |Range { start, end }: Range<u32>| -> Result<T, String> {
        let mut state = T::default();
        for first in (start..end).step_by(CHUNK as usize) {
            let last = end.min(first + CHUNK);
            for i in first..last {
                each(&mut state, i)?;
            }
            progress.add((last - first) as usize);
        }
        Ok(state)
    };
    thread::scope(|scope| {
        let first = scope.spawn(|| half(0..count / 2));
        let second = half(count / 2..count);
        Ok([first.join().unwrap()?, second?])
    })
}
