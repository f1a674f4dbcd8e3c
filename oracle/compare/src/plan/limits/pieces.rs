//! The words of pieces that are in the plan.

use super::{kinds, own_words, shape, Cases};
use crate::judge::{KINDS, NO_ROOM};
use crate::plan::layout::*;
use crate::plan::sound;

/// The words of a piece in the plan, the first or the last of its list, and of its cutters.
pub fn run(list: List, cases: &mut Cases) -> Result<(), String> {
    let kinds: Vec<u32> = kinds(list).collect();
    for cutter in 0..KINDS {
        let kind = kinds[cutter as usize % kinds.len()];
        let mut plan = sound::plan();
        let pieces = match list {
            List::Planes => &mut plan.planes,
            _ => &mut plan.objects,
        };
        let record = if cutter % 2 == 0 { 0 } else { pieces.len() - 1 };
        pieces[record] = sound::piece(kind, &[cutter, 0, cutter]);
        cases.plan(&plan);
        let table = plan.table();
        let at = list.section().at(record);
        of_shape(list, at + KIND, kind, cases)?;
        let place = table[at + PLACE] as usize;
        of_shape(list, CUTTERS.at(place), cutter, cases)?;
        of_shape(list, CUTTERS.at(place + 2), cutter, cases)?;
        if cutter < 2 {
            of_piece(list, at, &table, cases)?;
        }
    }
    cases.plan(&sound::plan());
    Ok(())
}

/// A kind and its words, of a piece of the list or of its cutter.
fn of_shape(list: List, at: usize, kind: u32, cases: &mut Cases) -> Result<(), String> {
    shape(kind).into_iter().try_for_each(|(i, word, number)| cases.with_plan(Some(list), at + i, word, number))
}

fn of_piece(list: List, at: usize, table: &[u32], cases: &mut Cases) -> Result<(), String> {
    for (i, word, number) in own_words() {
        cases.with_plan(Some(list), at + i, word, number)?;
    }
    // Another number of cutters moves the places of later pieces, or of a plane itself.
    let cuts = table[at + CUTS];
    let last = table[list as usize] as usize == 1 + (at - list.section().first) / ROW;
    if list == List::Planes || !last {
        for other in [cuts - 1, cuts + 1, 0, 8] {
            cases.with_plan(Some(list), at + CUTS, other, NO_ROOM)?;
        }
    }
    let place = table[at + PLACE];
    for step in [1, 16, 0x100, 0x400, 0x1_0000, 1 << 31, u32::MAX] {
        cases.with_plan(Some(list), at + PLACE, place.wrapping_add(step), NO_ROOM)?;
    }
    Ok(())
}
