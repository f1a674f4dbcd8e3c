//! The greatest distance of an arc cosine from the double-precision one, and where it is.

use crate::words;
use std::fmt;

/// Document 01's bound.
const BOUND: f64 = 0.000002;

#[derive(Clone, Copy, Default)]
pub struct AcosError {
    distance: f64,
    at: u32,
}

impl AcosError {
    #[inline]
    pub fn take(&mut self, x: u32, acos: u32) {
        let exact = f64::from(f32::from_bits(x)).acos();
        let distance = (f64::from(f32::from_bits(acos)) - exact).abs();
        self.join(AcosError { distance, at: x });
    }

    #[inline]
    pub fn join(&mut self, other: AcosError) {
        if other.distance > self.distance || other.distance.is_nan() {
            *self = other;
        }
    }

    pub fn verdict(self) -> Result<(), String> {
        if self.distance <= BOUND {
            Ok(())
        } else {
            Err(format!("{self}, above {BOUND}"))
        }
    }
}

impl fmt::Display for AcosError {
    fn fmt(&self, f: &mut fmt::Formatter) -> fmt::Result {
        let at = words::show(self.at);
        write!(f, "at most {:.3e} from double precision, at {at}", self.distance)
    }
}
