//! The number that each of these calls must send, from document 01 and VIEWER.md alone.

use super::words_of;
use crate::call::{Call, OUT_BYTES};
use crate::judge::*;
use crate::plan::layout::MATERIAL_WORDS;

pub const ROOT: Range = not_negative(f32::MAX);
pub const ACOS: Range = magnitude(1.0);

/// The number for `args`, all its bytes, and an `out` of that many bytes.
pub fn number(call: Call, args: &[u8], out_len: usize) -> u32 {
    let mut lowest = Lowest::default();
    let short = args.len() < 4 * call.args_words();
    lowest.apply(NO_ROOM, short || out_len < OUT_BYTES);
    if !short {
        judge_args(call, &words_of(args), &mut lowest);
    }
    lowest.number()
}

fn judge_args(call: Call, args: &[u32], lowest: &mut Lowest) {
    match call {
        Call::Root => judge_floats(&args[..1], &[ROOT], lowest),
        Call::Acos => judge_floats(&args[..1], &[ACOS], lowest),
        Call::PrimDist => {
            judge_prim(args[0], &args[1..9], lowest);
            judge_floats(&args[9..12], &[POINT; 3], lowest);
        }
        Call::PrimBounds => {
            judge_prim(args[0], &args[1..9], lowest);
            lowest.apply(WRONG_KIND, args[0] == PLANE);
        }
        Call::FormFactor => judge_floats(args, &[POINT; 12], lowest),
        Call::Fresnel => judge_floats(args, &[COSINE, UNIT, UNIT, UNIT], lowest),
        Call::F0 | Call::DiffuseAlbedo => judge_floats(args, &[UNIT; MATERIAL_WORDS], lowest),
        _ => call.stray(),
    }
}
