//! Document 01's two differences from the source, put in where the source faults or gives no number.
//! Each is counted, so that a run can say how often one was met, and that all other answers are the
//! source's with no more than its arc cosine replaced.

use std::cell::Cell;

thread_local! {
    static SIXTH: Cell<u64> = const { Cell::new(0) };
    static NO_WAY: Cell<u64> = const { Cell::new(0) };
}

/// How often each was met in this thread so far.
#[derive(Clone, Copy, Debug, Default, PartialEq)]
pub struct Met {
    /// A clip that had a sixth corner to give.
    pub sixth: u64,
    /// A representative point at a computed length of 0.
    pub no_way: u64,
}

pub fn met() -> Met {
    Met { sixth: SIXTH.get(), no_way: NO_WAY.get() }
}

/// Whether the clip has room for another corner after `n`: it ends with the places that it has.
#[inline]
pub fn room(n: usize, places: usize) -> bool {
    let room = n < places;
    SIXTH.set(SIXTH.get() + u64::from(!room));
    room
}

/// Whether there is no way to the representative point, and so no specular part.
#[inline]
pub fn no_way(length: f32) -> bool {
    let none = length == 0.0;
    NO_WAY.set(NO_WAY.get() + u64::from(none));
    none
}
