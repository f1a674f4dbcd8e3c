//! Panels in a local frame, as form factors are asked for: chosen ones, and random ones of all sorts.

use crate::draw::{fit, within};
use crate::judge::POINT;
use crate::rng::Rng;

/// Panels of size 1 or so.
pub const CHOSEN: [[[f32; 3]; 4]; 16] = [
    // Overhead, flat and counter-clockwise as seen from below.
    [[-1.0, 1.0, 1.0], [1.0, 1.0, 1.0], [1.0, -1.0, 1.0], [-1.0, -1.0, 1.0]],
    // Across the horizon at two edges, by one corner and by three.
    [[-1.0, 1.0, 1.0], [1.0, 1.0, 1.0], [1.0, -1.0, -1.0], [-1.0, -1.0, -1.0]],
    [[-1.0, 1.0, -1.0], [1.0, 1.0, 1.0], [1.0, -1.0, -1.0], [-1.0, -1.0, -1.0]],
    [[-1.0, 1.0, 1.0], [1.0, 1.0, 1.0], [1.0, -1.0, -1.0], [-1.0, -1.0, 1.0]],
    // Skew, across it four times: from below first, and (turned) from above first.
    [[-1.0, 1.0, -1.0], [1.0, 1.0, 1.0], [1.0, -1.0, -1.0], [-1.0, -1.0, 1.0]],
    [[0.0, 0.0, -1.0], [0.0, 0.0, 0.0], [0.0, 0.0, -1.0], [0.0, 0.0, 0.0]],
    [[-1.0, 1.0, -0.5], [1.0, 1.0, 0.0], [1.0, -1.0, -0.25], [-1.0, -1.0, -0.0]],
    // In the horizon, and with an edge or a corner in it.
    [[-1.0, 1.0, 0.0], [1.0, 1.0, 0.0], [1.0, -1.0, 0.0], [-1.0, -1.0, -0.0]],
    [[-1.0, 1.0, 0.0], [1.0, 1.0, -0.0], [1.0, 1.0, 1.0], [-1.0, 1.0, 1.0]],
    [[0.0, 1.0, 0.0], [1.0, 1.0, 1.0], [0.0, 1.0, 2.0], [-1.0, 1.0, 1.0]],
    // Seen edge-on: in a plane with the point, with the point inside, at a corner and on an edge.
    [[-1.0, 0.0, -1.0], [1.0, 0.0, -1.0], [1.0, 0.0, 1.0], [-1.0, 0.0, 1.0]],
    [[0.0, 0.0, 0.0], [1.0, 0.0, 0.0], [1.0, 0.0, 1.0], [0.0, 0.0, 1.0]],
    [[-1.0, 0.0, 0.0], [1.0, 0.0, 0.0], [1.0, 1.0, 1.0], [-1.0, 1.0, 1.0]],
    // All corners one, two and two, and on a line through the point.
    [[0.5, 0.5, 1.0], [0.5, 0.5, 1.0], [0.5, 0.5, 1.0], [0.5, 0.5, 1.0]],
    [[0.5, 0.5, 1.0], [0.5, 0.5, 1.0], [-0.5, 0.25, 1.0], [-0.5, 0.25, 1.0]],
    [[-1.0, 0.0, 1.0], [1.0, 0.0, -1.0], [2.0, 0.0, -2.0], [-3.0, 0.0, 3.0]],
];

/// Four corners x y z, of all scales and about every turn of the code.
pub fn corners(rng: &mut Rng) -> [f32; 12] {
    let style = rng.below(10);
    // Which corners lie below the horizon, a bit to each. Four crossings have a share of their own.
    let any = rng.below(16);
    let below = rng.pick(&[any, any, 0b0101, 0b1010]);
    let scale = within(rng, POINT).abs();
    let at = [0; 3].map(|_| rng.unit() * 2.0 - 1.0);
    let edges = [0; 6].map(|_| rng.unit() * 2.0 - 1.0);
    let pool = [0; 4].map(|_| within(rng, POINT));
    let chosen = rng.pick(&CHOSEN);
    let mut corners = [0.0; 12];
    for corner in 0..4 {
        let (along, across) = ([0.0, 1.0, 1.0, 0.0][corner], [0.0, 0.0, 1.0, 1.0][corner]);
        for i in 0..3 {
            let flat = at[i] + along * edges[i] + across * edges[3 + i];
            let spread = rng.unit() * 2.0 - 1.0;
            let x = match style {
                // Each word for itself; few values, each many times.
                0 => within(rng, POINT),
                1 => rng.pick(&pool),
                // Flat, skew by a little, and any four points.
                2..=3 => flat * scale,
                4 => (flat + spread * 1e-3) * scale,
                5 => spread * scale,
                // Near a chosen one.
                6 => chosen[corner][i] + spread * rng.pick(&[0.0, 1e-7, 1e-3]),
                // Heights as they are told, some of them 0.
                _ if i == 2 => {
                    let height = rng.pick(&[0.0, 1e-30, 1e-7, 1.0, 1.0]) * spread.abs();
                    if below >> corner & 1 == 1 {
                        -height
                    } else {
                        height
                    }
                }
                _ => flat * rng.pick(&[1e-9, 1.0, 1.0, 100.0]),
            };
            corners[3 * corner + i] = fit(x, POINT);
        }
    }
    corners
}
