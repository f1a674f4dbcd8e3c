//! Distance and bounds of random shapes, equal as floats to the source's.

use super::check::check;
use super::{draw, MOST_ARGS};
use crate::call::{Call, OUT_BYTES};
use crate::judge::{DONE, KINDS};
use crate::rng::Rng;
use crate::words;

const CASES: usize = 9_000_000;

/// Each kind is to be compared so often at the least.
const LEAST_OF_A_KIND: usize = 1_000_000;

pub fn run() -> Result<String, String> {
    let mut rng = Rng::new(2);
    let mut out = [0; OUT_BYTES];
    let mut args = [0; 4 * MOST_ARGS];
    let mut distances = [0; KINDS as usize];
    let mut bounds = [0; KINDS as usize];
    for _ in 0..CASES {
        let words = draw::prim_args(&mut rng);
        let kind = words[0] as usize;
        words::put(&mut args, &words);
        distances[kind] += usize::from(check(Call::PrimDist, &args, &mut out)? == DONE);
        bounds[kind] += usize::from(check(Call::PrimBounds, &args, &mut out)? == DONE);
    }
    if distances.iter().any(|&n| n < LEAST_OF_A_KIND) {
        return Err(format!("too few distances of some kind: {distances:?}"));
    }
    Ok(format!("each the source's; by kind, distances {distances:?}, bounds {bounds:?}"))
}

#[cfg(test)]
mod tests {
    use super::*;
    use crate::scalar::answer::answer;
    use crate::scalar::judge;

    /// So no field inside the domain is without a number.
    #[test]
    fn every_distance_is_a_number() {
        let mut rng = Rng::new(15);
        for _ in 0..20_000_000 {
            let words = draw::prim_args(&mut rng);
            if judge::number(Call::PrimDist, &words::bytes(&words), OUT_BYTES) == DONE {
                let distance = f32::from_bits(answer(Call::PrimDist, &words)[0]);
                assert!(distance.is_finite(), "{distance} of {words:08x?}");
            }
        }
    }
}
