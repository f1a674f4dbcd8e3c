//! Arc cosine on patterns from -1 to 1: bit for bit document 01's formula, and
//! close to the double-precision one.

use super::acos_error::AcosError;
use super::check::check;
use super::patterns::{self, halves};
use crate::call::{Call, OUT_BYTES};
use crate::words;

/// A prime, so that the low bits of the patterns go through all their values.
const STRIDE: usize = 263;

const ONE: u32 = 1f32.to_bits();
const MINUS: u32 = 1 << 31;

/// A sample of the patterns, and the ends of their ranges.
pub fn sample() -> Result<String, String> {
    let mut count = 0u32;
    let mut worst = AcosError::default();
    let mut out = [0; OUT_BYTES];
    let mut both_signs = |size: u32| {
        for bits in [size, size | MINUS] {
            count += 1;
            check(Call::Acos, &bits.to_le_bytes(), &mut out)?;
            worst.take(bits, words::word(&out, 0));
        }
        Ok::<(), String>(())
    };

    // Powers of two, with their neighbours.
    let powers = (1..127).map(|i| i << 23).flat_map(|power| power - 1..=power + 1);
    for size in patterns::sample(ONE, STRIDE).chain(powers) {
        both_signs(size)?;
    }
    worst.verdict()?;
    Ok(format!("{count} patterns, each the formula's; {worst}"))
}

/// Every pattern, of both signs.
pub fn sweep() -> Result<String, String> {
    let count = 2 * (ONE + 1);
    let [mut worst, other] = halves("arc cosine", count, |worst: &mut AcosError, i| {
        // Halved, with the last bit for the sign.
        let bits = i.rotate_right(1);
        let mut out = [0; OUT_BYTES];
        check(Call::Acos, &bits.to_le_bytes(), &mut out)?;
        worst.take(bits, words::word(&out, 0));
        Ok(())
    })?;
    worst.join(other);
    worst.verdict()?;
    Ok(format!("arc cosine: {count} patterns, each the formula's; {worst}"))
}
