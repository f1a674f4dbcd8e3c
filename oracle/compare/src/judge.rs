//! What all judges share: the numbers, the ranges of words, and primitives, from document 01 alone.

/// Document 01's numbers.
pub const DONE: u32 = 0;
pub const BAD_WORD: u32 = 1;
pub const NO_ROOM: u32 = 2;
pub const NO_MATERIAL: u32 = 3;
pub const NO_EXTENT: u32 = 4;
pub const WRONG_KIND: u32 = 5;
pub const BAD_TREE: u32 = 6;
pub const TOO_DEEP: u32 = 7;
pub const NO_TREE: u32 = 8;
pub const AT_CENTRE: u32 = 9;

pub const KINDS: u32 = 7;
pub const PLANE: u32 = 2;
pub const CAPSULE: u32 = 3;

/// What a float may be: a finite number from `lo` to `hi`, both taken. A -0 stands for 0.
#[derive(Clone, Copy, Debug)]
pub struct Range {
    pub lo: f32,
    pub hi: f32,
}

impl Range {
    pub fn has(self, x: f32) -> bool {
        // A comparison with a NaN is false, and no infinity lies between finite bounds.
        self.lo <= x && x <= self.hi
    }
}

pub const fn magnitude(hi: f32) -> Range {
    Range { lo: -hi, hi }
}

pub const fn not_negative(hi: f32) -> Range {
    Range { lo: 0.0, hi }
}

pub const COORD: Range = magnitude(10_000.0);
pub const RADIUS: Range = not_negative(10_000.0);
pub const NORMAL: Range = magnitude(1.5);
pub const POINT: Range = magnitude(200_000.0);
/// Where a ray begins, and how far it goes.
pub const ORIGIN: Range = magnitude(20_000.0);
pub const ALONG: Range = not_negative(100_000.0);
pub const SHARPNESS: Range = not_negative(1_000.0);
pub const COSINE: Range = magnitude(10.0);
/// Albedo, roughness, metallic, F0.
pub const UNIT: Range = not_negative(1.0);

/// The ranges of the words that a kind uses, in the source's order; none for an unknown kind.
pub fn ranges(kind: u32) -> Option<&'static [Range]> {
    const C: Range = COORD;
    const R: Range = RADIUS;
    const N: Range = NORMAL;
    Some(match kind {
        0 => &[C, C, C, R],
        1 => &[C, C, C, R, R, R, R],
        2 => &[N, N, N, C],
        3 => &[C, C, C, C, C, C, R],
        4 => &[C, C, C, R, R],
        5 => &[C, C, C, C, C, C, R],
        6 => &[C, C, C, C, C, C, R, R],
        _ => return None,
    })
}

/// Where several numbers apply the lowest is sent.
#[derive(Default)]
pub struct Lowest(u32);

impl Lowest {
    pub fn number(&self) -> u32 {
        self.0
    }

    pub fn apply(&mut self, number: u32, when: bool) {
        if when && (self.0 == DONE || number < self.0) {
            self.0 = number;
        }
    }
}

pub fn judge_prim(kind: u32, words: &[u32], lowest: &mut Lowest) {
    match ranges(kind) {
        None => lowest.apply(BAD_WORD, true),
        Some(ranges) => judge_floats(words, ranges, lowest),
    }
    lowest.apply(NO_EXTENT, kind == CAPSULE && square_of_axis(words) == 0.0);
}

/// Judges as many words as there are ranges.
pub fn judge_floats(words: &[u32], ranges: &[Range], lowest: &mut Lowest) {
    for (&word, range) in words.iter().zip(ranges) {
        lowest.apply(BAD_WORD, !range.has(f32::from_bits(word)));
    }
}

/// The computed `ba.dot(ba)`, which can be 0 for ends that differ.
fn square_of_axis(words: &[u32]) -> f32 {
    let part = |i: usize| {
        let ba = f32::from_bits(words[i + 3]) - f32::from_bits(words[i]);
        ba * ba
    };
    (part(0) + part(1)) + part(2)
}
