//! Chosen rays at chosen panels, with what they hit: emission and parameter, apart from the source.

use super::check::expect;
use crate::call::OUT_BYTES;
use crate::judge::DONE;
use crate::plan::layout::LIGHT_WORDS;
use crate::words;

type Panel = [f32; LIGHT_WORDS];

/// A square of side 2 about the z axis at a height, which shines down or up with a strength.
fn square(z: f32, down: bool, strength: f32) -> Panel {
    let [a, b, c, d] = [[-1.0, -1.0, z], [-1.0, 1.0, z], [1.0, 1.0, z], [1.0, -1.0, z]];
    let corners = if down { [a, b, c, d] } else { [a, d, c, b] };
    let mut panel = [strength; LIGHT_WORDS];
    panel[..12].copy_from_slice(&corners.concat());
    panel
}

/// Rays from below the origin's plane, up along z.
fn up(x: f32, y: f32, tmax: f32) -> [f32; 7] {
    [x, y, 0.0, 0.0, 0.0, 1.0, tmax]
}

pub fn run() -> Result<usize, String> {
    let down = |z, strength| square(z, true, strength);
    let cases: &[(&[Panel], [f32; 7], Option<(f32, f32)>)] = &[
        (&[], up(0.0, 0.0, 10.0), None),
        (&[down(2.0, 5.0)], up(0.0, 0.0, 10.0), Some((2.0, 5.0))),
        // Its back is not seen, nor is what lies behind the ray or at its begin.
        (&[square(2.0, false, 5.0)], up(0.0, 0.0, 10.0), None),
        (&[down(-2.0, 5.0)], up(0.0, 0.0, 10.0), None),
        (&[down(0.0, 5.0)], up(0.0, 0.0, 10.0), None),
        // `tmax` itself is too far.
        (&[down(2.0, 5.0)], up(0.0, 0.0, 2.0), None),
        (&[down(2.0, 5.0)], up(0.0, 0.0, 2f32.next_up()), Some((2.0, 5.0))),
        (&[down(2.0, 5.0)], up(0.0, 0.0, 0.0), None),
        // Edges and corners are hit.
        (&[down(2.0, 5.0)], up(1.0, 0.0, 10.0), Some((2.0, 5.0))),
        (&[down(2.0, 5.0)], up(-1.0, -1.0, 10.0), Some((2.0, 5.0))),
        (&[down(2.0, 5.0)], up(1.0, 1.0, 10.0), Some((2.0, 5.0))),
        (&[down(2.0, 5.0)], up(1.001, 0.0, 10.0), None),
        (&[down(2.0, 5.0)], up(0.0, -1.001, 10.0), None),
        // The nearest, wherever it stands; of equally near ones the first.
        (&[down(3.0, 1.0), down(2.0, 5.0), down(4.0, 2.0)], up(0.5, 0.5, 10.0), Some((2.0, 5.0))),
        (&[down(2.0, 1.0), down(2.0, 5.0)], up(0.5, 0.5, 10.0), Some((2.0, 1.0))),
        (&[square(1.0, false, 9.0), down(2.0, 5.0)], up(0.5, 0.5, 10.0), Some((2.0, 5.0))),
        // One that does not shine is hit all the same.
        (&[down(2.0, 0.0)], up(0.0, 0.0, 10.0), Some((2.0, 0.0))),
        // Along the panel, and not at all.
        (&[down(0.0, 5.0)], [-5.0, 0.0, 0.0, 1.0, 0.0, 0.0, 10.0], None),
        (&[down(2.0, 5.0)], [0.0, 0.0, 0.0, 0.0, 0.0, 0.0, 10.0], None),
        // A long direction makes for a short way.
        (&[down(3.0, 5.0)], [0.0, 0.0, 0.0, 0.0, 0.0, 1.5, 10.0], Some((2.0, 5.0))),
        (&[down(2.0, 5.0); 16], up(0.0, 0.0, 10.0), Some((2.0, 5.0))),
    ];
    for (panels, ray, hit) in cases {
        let lights = words::bytes(&words::bits(&panels.concat()));
        let mut out = [0; OUT_BYTES];
        expect(&lights, &words::bytes(&words::bits(ray)), &mut out, DONE)?;
        let have = [0, 1, 2, 3, 4].map(|i| words::word(&out, i));
        let want = hit.map_or([0; 5], |(t, strength)| {
            let [t, strength] = [t, strength].map(f32::to_bits);
            [1, t, strength, strength, strength]
        });
        if have != want {
            return Err(format!("{ray:?} at {panels:?}: the source says {}", words::show_all(&have)));
        }
    }
    Ok(cases.len())
}
