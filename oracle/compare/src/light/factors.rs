//! Form factors of random panels: equal to those of the source with document 01's arc cosine, and close to
//! those of the source as it is.

use super::panels;
use crate::call::{Call, OUT_BYTES};
use crate::judge::DONE;
use crate::progress::through_short;
use crate::rng::Rng;
use crate::scalar::check::check;
use crate::words;
use glam::Vec3;
use interflect::ltc::quad_form_factor;
use interflect_formula::differences::met;
use interflect_formula::ltc::clip_to_horizon;

pub fn run(panels: usize) -> Result<String, String> {
    let mut rng = Rng::new(61);
    let mut out = [0; OUT_BYTES];
    let mut args = [0; 48];
    // How often a clip ended with so many corners or had a sixth, and how often some light came through.
    let (mut clipped, mut sixth, mut seen) = ([0; 6], 0, 0);
    // The greatest distance from the source as it is, where that does not fault.
    let mut off = 0f32;
    for _ in through_short("factors", panels, "panels") {
        let corners = panels::corners(&mut rng);
        words::put(&mut args, &words::bits(&corners));
        assert_eq!(check(Call::FormFactor, &args, &mut out)?, DONE, "corners are drawn sound");
        let factor = f32::from_bits(words::word(&out, 0));
        seen += usize::from(factor > 0.0);
        let corners: [Vec3; 4] =
            std::array::from_fn(|i| Vec3::new(corners[3 * i], corners[3 * i + 1], corners[3 * i + 2]));
        let before = met();
        clipped[clip_to_horizon(&corners, &mut [Vec3::ZERO; 5])] += 1;
        if met() == before {
            off = off.max((factor - quad_form_factor(&corners)).abs());
        } else {
            sixth += 1;
        }
    }
    if sixth < panels / 50 || seen < panels / 8 || clipped[3..].iter().any(|&n| n < panels / 50) {
        return Err(format!("badly drawn: {seen} seen, clipped to {clipped:?}, {sixth} with a sixth corner"));
    }
    Ok(format!(
        "{panels} panels, each the source's, at most {off:.2e} from it as it is; {seen} seen, clipped to 0 to 5 \
         corners {clipped:?}, {sixth} without their sixth"
    ))
}
