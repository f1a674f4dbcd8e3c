//! What the reasons are put into: plans and `args` in which each can be had by few words.

use crate::call::Call;
use crate::judge::{CAPSULE, PLANE};
use crate::plan::layout::*;
use crate::plan::lent::Lent;
use crate::plan::model::{Piece, Plan, Prim};
use crate::plan::sound;
use crate::words;

/// A capsule that one word takes the extent of: its second y, made as great as its first.
pub const UPRIGHT: [f32; 8] = [1.0, 2.0, 3.0, 1.0, 4.0, 3.0, 0.5, 0.0];

fn with_upright(mut piece: Piece) -> Piece {
    let upright = Prim::new(CAPSULE, &words::bits(&UPRIGHT));
    piece.cutters[0] = upright;
    if piece.prim.kind == CAPSULE {
        piece.prim = upright;
    }
    piece
}

pub struct Base {
    pub table: Vec<u32>,
    /// There is one cutter place left, and a piece that is to enter has two cutters.
    pub crowded: bool,
}

impl Base {
    /// The records past the counts are sound too, so that a count alone can fill a list.
    pub fn new(crowded: bool) -> Base {
        let mut plan = Plan {
            materials: vec![sound::material(); MATERIALS.records],
            planes: vec![with_upright(sound::piece(PLANE, &[3, 0, 1]))],
            lights: vec![sound::light(); LIGHTS.records],
            objects: vec![
                with_upright(sound::piece(CAPSULE, &[3, 2])),
                sound::piece(0, &[]),
                with_upright(sound::piece(CAPSULE, &[3, 4, 6])),
            ],
        };
        if crowded {
            plan.objects.resize(129, sound::piece(1, &[0; 8]));
            plan.objects.push(sound::piece(1, &[0; 7]));
            assert_eq!(plan.cutters(), CUTTERS.records - 1);
        }
        let counts = [3, plan.planes.len(), 1, plan.objects.len()];
        let below = plan.objects.iter().map(|o| o.cutters.len()).sum::<usize>();
        plan.planes.resize(PLANES.records, sound::piece(PLANE, &[]));
        plan.objects.resize(OBJECTS.records, sound::piece(5, &[]));
        let mut table = plan.table();
        for (list, count) in List::ALL.into_iter().zip(counts) {
            table[list as usize] = count as u32;
        }
        if crowded {
            // Two more objects, in their right places, would have too many cutters.
            for more in 0..2 {
                let at = OBJECTS.at(counts[3] + more);
                table[at + CUTS] = 8;
                table[at + PLACE] = (below + 8 * more) as u32;
            }
        }
        Base { table, crowded }
    }

    /// The base and `args` that are sound, with two cutters where it is a piece that they enter.
    /// A tree stands, and is offered, that is right for the objects whatever they are.
    pub fn lend(&self, call: Call, tree: u32) -> Lent {
        let mut lent = Lent::new(&Plan::default(), 2);
        lent.plan.put(0, &self.table);
        lent.any_tree();
        lent.tree = tree;
        lent.args(&match call {
            Call::AddPlane => with_upright(sound::piece(PLANE, &[3, 0])).args(|| 0),
            Call::AddObject => with_upright(sound::piece(CAPSULE, &[3, 0])).args(|| 0),
            _ => sound::args(call),
        });
        lent
    }
}
