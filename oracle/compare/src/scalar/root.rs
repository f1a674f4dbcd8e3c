//! Root on patterns from 0 to f32::MAX, bit for bit the hardware's.

use super::check::check;
use super::patterns::{self, halves};
use crate::call::{Call, OUT_BYTES};
use crate::rng::Rng;

/// A prime, so that the low bits of the patterns go through all their values.
const STRIDE: usize = 257;

/// Random roots whose surroundings are tried.
const NEAR_TIES: usize = 200_000;

const MAX: u32 = f32::MAX.to_bits();

/// A sample of the patterns, and those where a root may go wrong.
pub fn sample() -> Result<String, String> {
    let mut count = 0u32;
    let mut out = [0; OUT_BYTES];
    let mut root = |bits: u32| {
        count += 1;
        check(Call::Root, &bits.to_le_bytes(), &mut out)
    };

    for bits in patterns::sample(MAX, STRIDE).chain([(-0f32).to_bits()]) {
        root(bits)?;
    }
    // Powers of two with their neighbours: the subnormal ones, then the others.
    for power in (0..23).map(|i| 1 << i).chain((1..255).map(|i| i << 23)) {
        for bits in power - 1..=power + 1 {
            root(bits)?;
        }
    }
    // Perfect squares with their neighbours, at even powers of two.
    for n in 1..4096u32 {
        for scale in [-140, -100, -40, 0, 40, 100] {
            let square = (f64::from(n * n) * 2f64.powi(scale)) as f32;
            for bits in square.to_bits() - 1..=square.to_bits() + 1 {
                root(bits)?;
            }
        }
    }
    // Numbers about the square of a midpoint of two floats: there rounding is hardest.
    let mut rng = Rng::new(1);
    for _ in 0..NEAR_TIES {
        let bits = rng.below(f32::MAX.sqrt().to_bits() as usize) as u32;
        let (below, above) = (f32::from_bits(bits), f32::from_bits(bits + 1));
        let midpoint = (f64::from(below) + f64::from(above)) / 2.0;
        let square = ((midpoint * midpoint) as f32).to_bits();
        for bits in square.saturating_sub(1)..=(square + 1).min(MAX) {
            root(bits)?;
        }
    }
    Ok(format!("{count} patterns, each the hardware's"))
}

/// Every pattern.
pub fn sweep() -> Result<String, String> {
    let count = MAX + 1;
    halves("root", count, |_: &mut (), bits| check(Call::Root, &bits.to_le_bytes(), &mut [0; OUT_BYTES]).map(|_| ()))?;
    Ok(format!("root: {count} patterns, each the hardware's"))
}
