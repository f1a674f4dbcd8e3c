//! Random numbers of a range.

use crate::judge::Range;
use crate::rng::Rng;

/// A number of the range, of any scale, with a good share of small whole numbers and limits.
pub fn within(rng: &mut Rng, range: Range) -> f32 {
    let hi = range.hi;
    let size = match rng.below(16) {
        0..=3 => rng.unit() * hi,
        4..=7 => between_bits(rng, 2f32.powi(-24).min(hi), hi),
        8 => between_bits(rng, 0.0, hi),
        9..=10 => rng.unit() * hi.min(10.0),
        11..=13 => (rng.below(9) as f32).min(hi),
        14 => 0.0,
        _ => hi,
    };
    let minus = rng.one_in(2) && (range.lo < 0.0 || size == 0.0);
    if minus {
        -size
    } else {
        size
    }
}

/// Each pattern between two numbers that are not negative is as likely, so each scale is.
pub fn between_bits(rng: &mut Rng, lo: f32, hi: f32) -> f32 {
    let (lo, hi) = (lo.to_bits(), hi.to_bits());
    f32::from_bits(lo + rng.below((hi - lo + 1) as usize) as u32)
}

/// The number of the range that is nearest to `x` or, where it may not be negative, to its size.
pub fn fit(x: f32, range: Range) -> f32 {
    let x = if range.lo < 0.0 { x } else { x.abs() };
    x.clamp(range.lo, range.hi)
}
