//! Document 01's arc cosine: root(1 - x) times the polynomial of Abramowitz and Stegun 4.4.46,
//! by Horner from the top, each operation rounded once.

/// a0 to a7, each the nearest f32.
#[allow(clippy::excessive_precision)]
const A: [f32; 8] = [
    1.5707963050,
    -0.2145988016,
    0.0889789874,
    -0.0501743046,
    0.0308918810,
    -0.0170881256,
    0.0066700901,
    -0.0012624911,
];

#[inline]
pub fn formula(x: f32) -> f32 {
    if x < 0.0 {
        std::f32::consts::PI - upper(-x)
    } else {
        upper(x)
    }
}

#[inline]
fn upper(x: f32) -> f32 {
    let mut sum = A[7];
    for a in A[..7].iter().rev() {
        sum = sum * x + a;
    }
    (1.0 - x).sqrt() * sum
}
