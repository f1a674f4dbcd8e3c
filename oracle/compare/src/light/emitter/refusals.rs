//! Limits, lengths, and every set of reasons to refuse, with the number written out here, apart from the
//! judge.

use super::check::expect;
use super::judge::RECORD_BYTES;
use crate::call::{Call, OUT_BYTES};
use crate::chosen::{about, NAN};
use crate::judge::{Range, ALONG, BAD_WORD, COORD, DONE, NORMAL, NO_EXTENT, NO_ROOM, ORIGIN};
use crate::plan::judge::EMISSION;
use crate::plan::layout::LIGHT_WORDS;
use crate::plan::limits::flat::panels;
use crate::plan::sound;
use crate::words;

const NEED: usize = 28;
/// Bytes lent past what a call reads or writes.
const PAST: usize = 24;

pub fn run() -> Result<usize, String> {
    assert_eq!(NEED, 4 * Call::EmitterHit.args_words());
    Ok(limits()? + lengths()? + together()?)
}

fn ray() -> Vec<u32> {
    words::bits(&[&sound::POINT[..], &sound::DIRECTION, &[50.0]].concat())
}

/// So many sound lights, as words.
fn lights(many: usize) -> Vec<u32> {
    sound::light().repeat(many)
}

fn hold(lights: &[u32], args: &[u32], number: u32) -> Result<(), String> {
    expect(&words::bytes(lights), &words::bytes(args), &mut [0; OUT_BYTES], number)
}

fn limits() -> Result<usize, String> {
    let mut count = 0;
    let ranges = [ORIGIN, ORIGIN, ORIGIN, NORMAL, NORMAL, NORMAL, ALONG];
    for many in [0, 1, 16] {
        for (i, &range) in ranges.iter().enumerate() {
            for (word, number) in about(range, DONE) {
                let mut args = ray();
                args[i] = word;
                hold(&lights(many), &args, number)?;
                count += 1;
            }
        }
    }
    for (many, record) in [(1, 0), (3, 1), (16, 0), (16, 15)] {
        for i in 0..LIGHT_WORDS {
            let range: Range = if i < 12 { COORD } else { EMISSION };
            for (word, number) in about(range, DONE) {
                let mut lights = lights(many);
                lights[record * LIGHT_WORDS + i] = word;
                hold(&lights, &ray(), number)?;
                count += 1;
            }
        }
        for (light, number) in panels() {
            let mut lights = lights(many);
            lights[record * LIGHT_WORDS..][..LIGHT_WORDS].copy_from_slice(&light);
            hold(&lights, &ray(), number)?;
            count += 1;
        }
    }
    Ok(count)
}

/// Every length of each of the three, from 0 to past what is taken, with sound words and with broken ones.
fn lengths() -> Result<usize, String> {
    let mut count = 0;
    for (broken_light, broken_ray) in [(false, false), (true, false), (false, true)] {
        let (mut lights, mut args) = (lights(18), ray());
        if broken_light {
            lights[0] = NAN;
        }
        if broken_ray {
            args[6] = NAN;
        }
        let lights = words::bytes(&lights);
        let mut args = words::bytes(&args);
        args.resize(NEED + PAST, 0xff);
        let mut hold = |lights_len: usize, args_len: usize, out_len: usize| {
            let whole = lights_len % RECORD_BYTES == 0 && lights_len <= 16 * RECORD_BYTES;
            let bad_light = broken_light && whole && lights_len > 0;
            let bad_ray = broken_ray && args_len >= NEED;
            let number = match (bad_light || bad_ray, whole && args_len >= NEED && out_len >= OUT_BYTES) {
                (true, _) => BAD_WORD,
                (_, false) => NO_ROOM,
                _ => DONE,
            };
            count += 1;
            expect(&lights[..lights_len], &args[..args_len], &mut [0; OUT_BYTES + PAST][..out_len], number)
        };
        for lights_len in 0..=lights.len() {
            hold(lights_len, NEED, OUT_BYTES)?;
        }
        for lights_len in [0, 1, RECORD_BYTES, 2 * RECORD_BYTES - 1, 16 * RECORD_BYTES, 17 * RECORD_BYTES] {
            for args_len in 0..=NEED + PAST {
                for out_len in 0..=OUT_BYTES + PAST {
                    hold(lights_len, args_len, out_len)?;
                }
            }
        }
    }
    Ok(count)
}

/// Each set of these: a broken light, a flat one, a broken ray, a short one, a record too many or cut off,
/// a short `out`.
fn together() -> Result<usize, String> {
    const ALL: u32 = 1 << 7;
    for set in 0..ALL {
        let has = |i: u32| set >> i & 1 == 1;
        let (mut lights, mut args) = (lights(if has(4) { 17 } else { 2 }), ray());
        let mut numbers = Vec::new();
        let unread = has(4) || has(5);
        if has(0) {
            lights[LIGHT_WORDS + 12] = NAN;
            numbers.extend((!unread).then_some(BAD_WORD));
        }
        if has(1) {
            lights.copy_within(0..3, 3);
            numbers.extend((!unread).then_some(NO_EXTENT));
        }
        if has(2) {
            args[0] = NAN;
            numbers.extend((!has(3)).then_some(BAD_WORD));
        }
        numbers.extend((has(3) || unread || has(6)).then_some(NO_ROOM));
        let (lights, args) = (words::bytes(&lights), words::bytes(&args));
        let lights_len = lights.len() - usize::from(has(5));
        let args_len = NEED - usize::from(has(3));
        let out_len = OUT_BYTES - usize::from(has(6));
        let number = numbers.into_iter().min().unwrap_or(DONE);
        expect(&lights[..lights_len], &args[..args_len], &mut [0; OUT_BYTES][..out_len], number)?;
    }
    Ok(ALL as usize)
}
