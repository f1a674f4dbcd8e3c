//! The two builds differ in the arc cosine, in document 01's differences, and in nothing else.

use glam::Vec3;

const PANEL: [Vec3; 4] =
    [Vec3::new(-1.0, -1.0, 2.0), Vec3::new(1.0, -1.0, 2.5), Vec3::new(1.5, 1.0, 2.0), Vec3::new(-1.0, 1.0, 1.5)];

#[test]
fn form_factors_are_close_and_not_all_equal() {
    let mut unequal = 0;
    for step in 0..1000 {
        let shift = Vec3::new(step as f32 * 0.01 - 5.0, 0.3, step as f32 * -0.002);
        let panel = PANEL.map(|corner| corner + shift);
        let plain = interflect::ltc::quad_form_factor(&panel);
        let formula = interflect_formula::ltc::quad_form_factor(&panel);
        assert!((plain - formula).abs() <= 0.000004, "{panel:?}");
        unequal += u32::from(plain != formula);
    }
    assert!(unequal > 0, "the formula was not put in");
}

#[test]
fn nothing_else_is_replaced() {
    for ((file, plain), (_, formula)) in interflect::TEXTS.iter().zip(interflect_formula::TEXTS) {
        let lines = |text: &'static str| text.lines().collect::<Vec<_>>();
        let (plain, formula) = (lines(plain), lines(formula));
        let others = formula.iter().filter(|line| !plain.contains(line)).count();
        let expected = match *file {
            // The arc cosine; room for a corner.
            "ltc" => (0, 2),
            // Three lines before the direction to the representative point, two of which other loops have too.
            "shade" => (3, 1),
            _ => (0, 0),
        };
        assert_eq!((formula.len() - plain.len(), others), expected, "{file}.rs");
    }
}
