//! Refusals: tables of every length, several reasons at once, and a random mix of all of it.

use super::cases::limits::{number_of_sound, sound};
use super::cases::{light, prim_args};
use super::check::{check, expect};
use super::judge::ACOS;
use super::{draw, MOST_ARGS};
use crate::call::{Call, OUT_BYTES};
use crate::chosen::{NOT_FINITE, UNKNOWN_KINDS};
use crate::draw::within;
use crate::judge::*;
use crate::light::panels;
use crate::rng::Rng;
use crate::words;

const MIXED: usize = 400_000;

/// Bytes lent past what a call reads or writes.
const PAST: usize = 24;

pub fn run() -> Result<String, String> {
    let mut count = 0;
    for &call in Call::SCALAR {
        count += lengths(call)?;
    }
    count += several_reasons()?;
    let sent = mixed()?;
    Ok(format!("{count} lengths and orders; {MIXED} mixed, of each number {sent:?}"))
}

/// Args that get each number there is for a call whose tables are long enough.
fn by_content(call: Call) -> Vec<(Vec<u32>, u32)> {
    match call {
        Call::Root | Call::Acos => {
            vec![(vec![0.75f32.to_bits()], DONE), (vec![NOT_FINITE[0]], BAD_WORD), (vec![(-2f32).to_bits()], BAD_WORD)]
        }
        Call::PrimDist | Call::PrimBounds => {
            let mut kinds: Vec<(Vec<u32>, u32)> =
                (0..KINDS).map(|kind| (sound(kind), number_of_sound(call, kind))).collect();
            let mut unknown = sound(0);
            unknown[0] = UNKNOWN_KINDS[0];
            kinds.push((unknown, BAD_WORD));
            let mut bad_plane = sound(PLANE);
            bad_plane[1] = NOT_FINITE[2];
            kinds.push((bad_plane, BAD_WORD));
            kinds.push((point_capsule(0.5), NO_EXTENT));
            kinds.push((point_capsule(-0.5), BAD_WORD));
            kinds
        }
        Call::FormFactor | Call::Fresnel | Call::F0 | Call::DiffuseAlbedo => {
            let sound = light::sound(call);
            let mut last = sound.clone();
            *last.last_mut().unwrap() = NOT_FINITE[4];
            let mut first = sound.clone();
            first[0] = 300_000f32.to_bits();
            vec![(sound, DONE), (last, BAD_WORD), (first, BAD_WORD)]
        }
        _ => call.stray(),
    }
}

fn point_capsule(r: f32) -> Vec<u32> {
    prim_args(CAPSULE, &[1.0, 2.0, 3.0, 1.0, 2.0, 3.0, r], [0.0; 3])
}

/// Every length of `args` and of `out` from 0 to past what the call needs, in bytes.
fn lengths(call: Call) -> Result<usize, String> {
    let need = 4 * call.args_words();
    let mut count = 0;
    for (words, number) in by_content(call) {
        let mut args = words::bytes(&words[..call.args_words()]);
        args.resize(need + PAST, 0xff);
        let mut out = [0; OUT_BYTES + PAST];
        for args_len in 0..=args.len() {
            for out_len in 0..=out.len() {
                let number = if args_len < need {
                    NO_ROOM
                } else if out_len < OUT_BYTES {
                    // 1 comes before 2, all others after it.
                    if number == BAD_WORD {
                        BAD_WORD
                    } else {
                        NO_ROOM
                    }
                } else {
                    number
                };
                expect(call, &args[..args_len], &mut out[..out_len], number)?;
                count += 1;
            }
        }
    }
    Ok(count)
}

/// The lowest number is sent.
fn several_reasons() -> Result<usize, String> {
    let mut nan_point = point_capsule(0.5);
    nan_point[10] = NOT_FINITE[3];
    let mut far_plane = sound(PLANE);
    far_plane[9] = 200_000f32.next_up().to_bits();
    let cases = [
        (Call::PrimDist, nan_point.clone(), 64, BAD_WORD),
        (Call::PrimDist, nan_point.clone(), 63, BAD_WORD),
        // No word of the point is read here.
        (Call::PrimBounds, nan_point.clone(), 64, NO_EXTENT),
        (Call::PrimBounds, nan_point, 60, NO_ROOM),
        (Call::PrimDist, far_plane.clone(), 64, BAD_WORD),
        (Call::PrimBounds, far_plane, 64, WRONG_KIND),
        (Call::PrimBounds, sound(PLANE), 0, NO_ROOM),
    ];
    for (call, args, out_len, number) in &cases {
        let mut out = [0; OUT_BYTES];
        expect(*call, &words::bytes(args), &mut out[..*out_len], *number)?;
    }
    Ok(cases.len())
}

/// Random calls with random faults, lengths and alignments; counts each number sent.
fn mixed() -> Result<[usize; 10], String> {
    let mut rng = Rng::new(3);
    let mut args = [0; 8 + 4 * MOST_ARGS + PAST];
    let mut out = [0; 8 + OUT_BYTES + PAST];
    let mut sent = [0; 10];
    for _ in 0..MIXED {
        let call = rng.pick(Call::SCALAR);
        let words = faulty(&mut rng, call);
        let first = rng.below(8);
        words::put(&mut args[first..], &words);
        let args_len = length(&mut rng, 4 * call.args_words());
        let args = &args[first..first + args_len];
        let first = rng.below(8);
        let out_len = length(&mut rng, OUT_BYTES);
        let number = check(call, args, &mut out[first..first + out_len])?;
        sent[number as usize] += 1;
    }
    Ok(sent)
}

fn faulty(rng: &mut Rng, call: Call) -> [u32; MOST_ARGS] {
    let mut words = match call {
        Call::FormFactor => panels::corners(rng).map(f32::to_bits),
        _ => draw::prim_args(rng),
    };
    if matches!(call, Call::Root | Call::Acos) {
        words[0] = within(rng, ACOS).to_bits();
    }
    if matches!(call, Call::Fresnel | Call::F0 | Call::DiffuseAlbedo) {
        words = words.map(|_| within(rng, UNIT).to_bits());
    }
    while rng.one_in(3) {
        let place = rng.below(MOST_ARGS);
        words[place] = match rng.below(4) {
            0 => rng.word(),
            1 => rng.pick(&NOT_FINITE),
            2 => rng.pick(&UNKNOWN_KINDS),
            _ => words[place] ^ 1 << 31,
        };
    }
    words
}

/// Most often what is needed, else anything from 0 to past it.
fn length(rng: &mut Rng, need: usize) -> usize {
    if rng.one_in(4) {
        rng.below(need + PAST + 1)
    } else {
        need
    }
}
