//! Fresnel, F0 and diffuse albedo of random surfaces, equal to the source's.

use crate::call::{Call, OUT_BYTES};
use crate::draw::within;
use crate::judge::{COSINE, DONE, UNIT};
use crate::progress::through_short;
use crate::rng::Rng;
use crate::scalar::check::check;
use crate::words;

pub fn run(surfaces: usize) -> Result<String, String> {
    let mut rng = Rng::new(62);
    let mut out = [0; OUT_BYTES];
    for _ in through_short("surfaces", surfaces, "surfaces") {
        let cosine = if rng.one_in(2) { rng.unit() * 1.25 - 0.125 } else { within(&mut rng, COSINE) };
        let words = [0; 5].map(|_| within(&mut rng, UNIT).to_bits());
        let fresnel = [&[cosine.to_bits()], &words[..3]].concat();
        for (call, args) in [(Call::Fresnel, &fresnel[..]), (Call::F0, &words), (Call::DiffuseAlbedo, &words)] {
            assert_eq!(check(call, &words::bytes(args), &mut out)?, DONE, "surfaces are drawn sound");
        }
    }
    Ok(format!("{surfaces} surfaces, each the source's"))
}
