//! The number that the call must send, from document 01 and VIEWER.md alone.

use crate::call::{Call, OUT_BYTES};
use crate::judge::{judge_floats, Lowest, Range, ALONG, NORMAL, NO_ROOM, ORIGIN};
use crate::plan::judge::judge_light;
use crate::plan::layout::{LIGHTS, LIGHT_WORDS};
use crate::words;

pub const RECORD_BYTES: usize = 4 * LIGHT_WORDS;
const MOST_BYTES: usize = LIGHTS.records * RECORD_BYTES;

/// Origin, direction, `tmax`.
const RAY: [Range; 7] = [ORIGIN, ORIGIN, ORIGIN, NORMAL, NORMAL, NORMAL, ALONG];

/// The number for these bytes and an `out` of so many.
pub fn number(lights: &[u8], args: &[u8], out_len: usize) -> u32 {
    let mut lowest = Lowest::default();
    let short = args.len() < 4 * Call::EmitterHit.args_words();
    lowest.apply(NO_ROOM, short || out_len < OUT_BYTES);
    if !short {
        judge_floats(&words::all(args), &RAY, &mut lowest);
    }
    let unread = lights.len() > MOST_BYTES || lights.len() % RECORD_BYTES != 0;
    lowest.apply(NO_ROOM, unread);
    if !unread {
        for light in lights.chunks(RECORD_BYTES) {
            judge_light(&words::all(light), &mut lowest);
        }
    }
    lowest.number()
}
