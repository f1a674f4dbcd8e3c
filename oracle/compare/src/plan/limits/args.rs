//! The words of `args`.

use super::{entry, kinds, own_words, shape, Cases};
use crate::call::Call;
use crate::chosen::{about, NAN, NOT_FINITE};
use crate::judge::{ALONG, BAD_WORD, COORD, DONE, KINDS, NORMAL, ORIGIN, POINT, SHARPNESS, UNIT, WRONG_KIND};
use crate::plan::judge::{BOUND, EMISSION};
use crate::plan::layout::*;
use crate::plan::model::used;
use crate::plan::sound;

/// Materials, lights and the calls that ask.
pub fn simple(cases: &mut Cases) -> Result<(), String> {
    let light = [vec![COORD; 12], vec![EMISSION; 3]].concat();
    let ray = [vec![ORIGIN; 3], vec![NORMAL; 3], vec![ALONG; 2]].concat();
    let ranges = [
        (Call::AddMaterial, vec![UNIT; 5]),
        (Call::AddLight, light),
        (Call::Query, vec![POINT, POINT, POINT, BOUND]),
        (Call::DistMat, vec![POINT; 3]),
        (Call::Trace, ray.clone()),
        (Call::SoftShadow, [ray, vec![SHARPNESS]].concat()),
        (Call::Direct, [vec![COORD; 3], vec![NORMAL; 6], vec![UNIT; 5]].concat()),
        (Call::DirectDiffuse, [vec![COORD; 3], vec![NORMAL; 3], vec![UNIT; 3]].concat()),
    ];
    for (call, ranges) in ranges {
        cases.args(&sound::args(call));
        for (i, range) in ranges.into_iter().enumerate() {
            for (word, number) in about(range, DONE) {
                cases.with_args(call, i, word, number)?;
            }
        }
    }
    cases.args(&sound::args(Call::Query));
    for word in NOT_FINITE.into_iter().chain([0, 3, 64, u32::MAX]) {
        cases.with_args(Call::Query, 4, word, DONE)?;
    }
    for &call in Call::ASKS {
        for tree in [2, 3, 8, 0x100, 0x101, 0x1_0000, 0x8000_0000, u32::MAX] {
            cases.bad_tree = Some(tree);
            cases.args(&sound::args(call));
            cases.hold(call, &[], &[], BAD_WORD)?;
        }
        cases.bad_tree = None;
    }
    Ok(())
}

/// A piece that is to enter.
pub fn piece(list: List, cases: &mut Cases) -> Result<(), String> {
    let call = entry(list);
    for kind in kinds(list) {
        cases.args(&sound::piece(kind, &[0]).args(|| 0));
        of_shape(call, KIND, kind, cases)?;
        for i in (PIECE_WORDS..ROW).chain(ROW + CUTTER_WORDS..2 * ROW) {
            cases.with_args(call, i, NAN, DONE)?;
        }
    }
    // A cutter of each kind, as the first of one and as the last of eight.
    let kind = sound::kind(list);
    for cutter in 0..KINDS {
        for place in [1, MOST_CUTTERS] {
            let mut cutters = vec![0; place];
            cutters[place - 1] = cutter;
            cases.args(&sound::piece(kind, &cutters).args(|| 0));
            of_shape(call, place * ROW, cutter, cases)?;
        }
    }
    of_piece(list, cases)?;
    // Any kind of the other list.
    for other in (0..KINDS).filter(|&other| kinds(list).all(|kind| kind != other)) {
        cases.args(&sound::piece(other, &[0]).args(|| 0));
        cases.hold(call, &[], &[], WRONG_KIND)?;
    }
    Ok(())
}

/// A kind and its words, of the piece or of a cutter; those that the kind does not use may hold anything.
fn of_shape(call: Call, at: usize, kind: u32, cases: &mut Cases) -> Result<(), String> {
    for (i, word, number) in shape(kind) {
        cases.with_args(call, at + i, word, number)?;
    }
    for i in used(kind)..8 {
        for word in NOT_FINITE {
            cases.with_args(call, at + 1 + i, word, DONE)?;
        }
    }
    Ok(())
}

/// The piece's other words. Its `args` have eight cutters, so that fewer may be said.
fn of_piece(list: List, cases: &mut Cases) -> Result<(), String> {
    let call = entry(list);
    cases.args(&sound::piece(sound::kind(list), &[0; MOST_CUTTERS]).args(|| 0));
    for (i, word, number) in own_words() {
        cases.with_args(call, i, word, number)?;
    }
    for cuts in 0..=MOST_CUTTERS {
        cases.with_args(call, CUTS, cuts as u32, DONE)?;
    }
    // What stands past the last cutter is not read.
    for cuts in 0..MOST_CUTTERS {
        let changes = [(CUTS, cuts as u32), ((1 + cuts) * ROW, 7)];
        cases.hold(call, &changes, &[], DONE)?;
    }
    Ok(())
}
