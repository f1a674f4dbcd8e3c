//! How far a long run is: a line on stderr now and then, from whatever part of it is at work.

use std::sync::atomic::{AtomicU64, AtomicUsize, Ordering::Relaxed};
use std::sync::LazyLock;
use std::time::Instant;

/// Seconds between two lines.
const EVERY: u64 = 5;

static BEGIN: LazyLock<Instant> = LazyLock::new(Instant::now);

/// When the last line came, in seconds from the beginning.
static TOLD: AtomicU64 = AtomicU64::new(0);

pub struct Progress {
    run: &'static str,
    things: &'static str,
    of: usize,
    done: AtomicUsize,
    start: u64,
}

impl Progress {
    /// A run that goes through so many things.
    pub fn new(run: &'static str, of: usize, things: &'static str) -> Progress {
        Progress { run, things, of, done: AtomicUsize::new(0), start: BEGIN.elapsed().as_secs() }
    }

    /// So many more are done, in whatever thread. It looks at the clock, so it is not for each of
    /// many short things.
    pub fn add(&self, more: usize) {
        let done = self.done.fetch_add(more, Relaxed) + more;
        let (told, now) = (TOLD.load(Relaxed), BEGIN.elapsed().as_secs());
        let due = now >= told + EVERY;
        if due && TOLD.compare_exchange(told, now, Relaxed, Relaxed).is_ok() {
            let (done, of, seconds) = (grouped(done), grouped(self.of), now - self.start);
            eprintln!("{}: {done} of {of} {}, {seconds} s", self.run, self.things);
        }
    }
}

/// Goes through things one by one.
pub fn through<T>(
    run: &'static str,
    of: impl IntoIterator<Item = T, IntoIter: ExactSizeIterator>,
    things: &'static str,
) -> impl Iterator<Item = T> {
    let of = of.into_iter();
    let progress = Progress::new(run, of.len(), things);
    // A thing is done when the next one is asked for.
    of.enumerate().map(move |(i, thing)| {
        progress.add(usize::from(i > 0));
        thing
    })
}

/// Things between two looks at the clock, where they are short.
const SHORT: usize = 1 << 14;

/// Goes through so many short things.
pub fn through_short(run: &'static str, of: usize, things: &'static str) -> impl Iterator<Item = usize> {
    let progress = Progress::new(run, of, things);
    (0..of).inspect(move |i| {
        if *i > 0 && i % SHORT == 0 {
            progress.add(SHORT);
        }
    })
}

/// 22288 as 22,288.
pub fn grouped(n: usize) -> String {
    match n {
        0..1_000 => n.to_string(),
        _ => format!("{},{:03}", grouped(n / 1_000), n % 1_000),
    }
}
