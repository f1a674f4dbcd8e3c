//! Chosen words: sound ones, those about a limit, and those that are refused wherever they stand.

use crate::judge::{Range, BAD_WORD, PLANE};

/// Not finite, so refused wherever a float is read.
pub const NOT_FINITE: [u32; 7] = [
    0x7f80_0000, // the infinities
    0xff80_0000,
    0x7fc0_0000, // quiet
    0xffc0_0000,
    0x7f80_0001, // signalling
    0xffbf_ffff,
    0xffff_ffff,
];

pub const NAN: u32 = NOT_FINITE[2];

/// No kinds, though some would be if only a part of the word were looked at.
pub const UNKNOWN_KINDS: [u32; 9] = [7, 8, 0xff, 0x100, 0x103, 0x1_0000, 0x0300_0000, 0x8000_0000, u32::MAX];

/// Words of a kind that are well inside the domain.
pub fn shape(kind: u32) -> &'static [f32] {
    match kind {
        PLANE => &[0.5, 1.0, -0.25, 3.0],
        _ => &[1.0, 2.0, 3.0, 4.0, 6.5, 5.0, 0.5, 0.25],
    }
}

/// Words about a range, with the number each gets where a sound word gets `taken`.
pub fn about(range: Range, taken: u32) -> Vec<(u32, u32)> {
    let Range { lo, hi } = range;
    let least = f32::from_bits(1);
    let inside = [lo, hi, lo.next_up(), hi.next_down(), 0.0, -0.0, least];
    let outside = [lo.next_down(), hi.next_up(), 2.0 * lo - 1.0, 2.0 * hi + 1.0];
    let mut words = Vec::new();
    words.extend(inside.map(|x| (x.to_bits(), taken)));
    words.extend(outside.map(|x| (x.to_bits(), BAD_WORD)));
    words.extend(NOT_FINITE.map(|word| (word, BAD_WORD)));
    words
}
