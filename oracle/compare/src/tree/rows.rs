//! Document 01's rows R1, R2 and R3, through the calls: objects enter, then the tree is built.

use super::source::tables;
use super::table::{Bounds, Node, Tables};
use crate::call::Call;
use crate::judge::{DONE, TOO_DEEP};
use crate::plan::check::expect;
use crate::plan::layout::{NODES_WORDS, ORDER_WORDS};
use crate::plan::lent::Lent;
use crate::plan::model::{Piece, Plan, Prim};
use crate::plan::{sound, source};
use crate::words;
use glam::Vec3;
use interflect::bvh::Bvh;
use std::ops::RangeInclusive;

pub fn run() -> Result<String, String> {
    let at = |xs: &[f32]| -> Vec<f32> { xs.to_vec() };
    let r1 = [node(0.0, 4.0, [0, 0, 2]), node(0.0, 3.0, [0, 4, 0]), node(4.0, 4.0, [4, 1, 0])];
    let in_order: Vec<u32> = (0..5).collect();
    let r1_tables = Tables::new(&r1, &in_order);
    must_build("R1", &at(&[0.0, 1.0, 2.0, 3.0, 4.0]), 3, &r1_tables)?;

    for x in [0.0, 7.5, -10_000.0] {
        let leaf = Tables::new(&[node(x, x, [0, 5, 0])], &in_order);
        must_build("R2", &at(&[x; 5]), 1, &leaf)?;
    }

    let chain = powers(-25..=41);
    let theirs = Bvh::build(&source::scene(&spheres(&chain)).objects);
    let nodes = theirs.node_count() as u32;
    must_build("R3", &chain, nodes, &tables(&theirs))?;
    let lent = built(&powers(-26..=41), TOO_DEEP)?;
    let none = Tables::new(&[], &[]);
    same_tables("R3", &lent, &none)?;
    Ok(format!("R1, R2, R3 (67 objects in {nodes} nodes, 68 get 7)"))
}

fn node(from: f32, to: f32, [start, count, right]: [u32; 3]) -> Node {
    Node { bounds: Bounds { lo: Vec3::new(from, 0.0, 0.0), hi: Vec3::new(to, 0.0, 0.0) }, start, count, right }
}

/// Enters such spheres, and builds.
fn built(xs: &[f32], number: u32) -> Result<Lent, String> {
    let mut lent = Lent::new(&Plan::default(), 3);
    lent.args(&sound::material());
    expect(Call::AddMaterial, &mut lent, DONE)?;
    for sphere in spheres(xs).objects {
        lent.args(&sphere.args(|| 0));
        expect(Call::AddObject, &mut lent, DONE)?;
    }
    expect(Call::Build, &mut lent, number)?;
    Ok(lent)
}

/// Spheres of radius 0 and no blend at these places of the x axis.
pub fn spheres(xs: &[f32]) -> Plan {
    let sphere = |&x: &f32| Piece {
        material: 0,
        blend: 0,
        prim: Prim::new(0, &words::bits(&[x, 0.0, 0.0, 0.0])),
        cutters: Vec::new(),
    };
    Plan { objects: xs.iter().map(sphere).collect(), materials: vec![sound::material()], ..Plan::default() }
}

fn must_build(row: &str, xs: &[f32], nodes: u32, tables: &Tables) -> Result<(), String> {
    let lent = built(xs, DONE)?;
    if lent.out.word(0) != nodes {
        return Err(format!("{row}: {} nodes, not {nodes}", lent.out.word(0)));
    }
    same_tables(row, &lent, tables)
}

/// Zeros of both signs are equal.
fn same_tables(row: &str, lent: &Lent, tables: &Tables) -> Result<(), String> {
    let unsigned = |word: u32| if word == 1 << 31 { 0 } else { word };
    let node = |i: &usize| unsigned(lent.nodes.word(*i)) != unsigned(tables.nodes[*i]);
    let order = |i: &usize| lent.order.word(*i) != tables.order[*i];
    if let Some(i) = (0..NODES_WORDS).find(node) {
        return Err(format!("{row}: word {i} of the nodes is another"));
    }
    match (0..ORDER_WORDS).find(order) {
        Some(i) => Err(format!("{row}: word {i} of the order is another")),
        None => Ok(()),
    }
}

/// The f32 nearest to each power of 1.25.
pub fn powers(exponents: RangeInclusive<i32>) -> Vec<f32> {
    exponents.map(power).collect()
}

/// The power is 5^i / 4^i. Whole numbers of up to 128 bits hold what is needed of it, so that one
/// rounding is made, in the cast; the scaling by a power of two is exact.
fn power(i: i32) -> f32 {
    let fives = 5u128.pow(i.unsigned_abs());
    if i >= 0 {
        return fives as f32 * 2f32.powi(-2 * i);
    }
    let (quotient, rest) = ((1u128 << 120) / fives, (1u128 << 120) % fives);
    // What is left over is less than the last place, which is far below the bit that is rounded.
    let sticky = quotient | u128::from(rest != 0);
    sticky as f32 * 2f32.powi(-2 * i - 120)
}

#[cfg(test)]
mod tests {
    use super::*;

    #[test]
    fn powers_are_nearest() {
        for (i, x) in (-26..=41).zip(powers(-26..=41)) {
            // In double precision the power is off by far less than half of a float's last place.
            let exact = 1.25f64.powi(i);
            let off = |x: f32| (f64::from(x) - exact).abs();
            assert!(off(x) <= off(x.next_up()) && off(x) <= off(x.next_down()));
        }
        assert_eq!(powers(0..=2), [1.0, 1.25, 1.5625]);
    }
}
