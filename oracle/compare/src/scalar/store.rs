//! Writes the stored answers, which a program of ours replays with no Rust at hand. None of them
//! is our library's.
//!
//! A record is 32 little-endian words: the call (0 root, 1 arc cosine, 2 distance, 3 bounds, 4 form factor,
//! 5 Fresnel, 6 F0, 7 diffuse albedo), the number that it must send, 14 words of args (unused ones 0), the 16
//! words of `out`.

use super::answer::answer;
use super::cases::{degenerate::degenerate, light::light, limits::limits, rows::rows, Case};
use super::draw;
use super::judge::{self, ACOS};
use crate::call::{Call, OUT_BYTES, OUT_WORDS};
use crate::draw::within;
use crate::judge::{COSINE, DONE, KINDS, RADIUS, UNIT};
use crate::light::panels;
use crate::plan::layout::MATERIAL_WORDS;
use crate::rng::Rng;
use crate::words;
use std::fs;

const RECORD_WORDS: usize = 32;
const ARGS: usize = 2;
const OUT: usize = 16;

/// Of the chosen cases of shapes, which are too many to store, one in this many: no divisor of
/// the number of cases that a word or a shape has, so that all sorts come in turn.
const EVERY: usize = 5;

/// Random cases: roots and arc cosines, distances, and bounds.
const ONES: usize = 60;
const DISTANCES: usize = 280;
const BOUNDS: usize = 100;

/// Form factors, and surfaces of each of three calls.
const FACTORS: usize = 300;
const SURFACES: usize = 50;

type Record = [u32; RECORD_WORDS];

/// Those of the first four calls.
pub fn run(file: &str) -> Result<(), String> {
    write(file, &records())
}

/// Those of the other four, in a file of their own.
pub fn run_light(file: &str) -> Result<(), String> {
    write(file, &light_records())
}

fn write(file: &str, records: &[Record]) -> Result<(), String> {
    let bytes: Vec<u8> = records.iter().flat_map(|r| words::bytes(r)).collect();
    fs::write(file, &bytes).map_err(|e| format!("{file}: {e}"))?;
    let refused = records.iter().filter(|r| r[1] != DONE).count();
    println!("{}: {} records, {refused} refused", file, records.len());
    Ok(())
}

fn light_records() -> Vec<Record> {
    let mut records = Vec::new();
    for case in light().iter().step_by(EVERY) {
        records.push(record(case.call, &case.args));
    }
    let mut rng = Rng::new(16);
    for _ in 0..FACTORS {
        records.push(record(Call::FormFactor, &panels::corners(&mut rng).map(f32::to_bits)));
    }
    for _ in 0..SURFACES {
        let words = [0; MATERIAL_WORDS].map(|_| within(&mut rng, UNIT).to_bits());
        let cosine = within(&mut rng, COSINE);
        records.push(record(Call::Fresnel, &[&[cosine.to_bits()], &words[..3]].concat()));
        records.push(record(Call::F0, &words));
        records.push(record(Call::DiffuseAlbedo, &words));
    }
    records
}

fn records() -> Vec<Record> {
    let mut records = Vec::new();
    for row in rows() {
        records.push(record(row.case.call, &row.case.args));
    }
    for cases in [limits(), degenerate()] {
        for (i, case) in cases.iter().enumerate() {
            if stored_always(case) || i % EVERY == 0 {
                records.push(record(case.call, &case.args));
            }
        }
    }
    let mut rng = Rng::new(6);
    for _ in 0..ONES {
        let anything = rng.word() >> 1;
        records.push(record(Call::Root, &[anything]));
        let x = within(&mut rng, RADIUS);
        records.push(record(Call::Root, &[x.to_bits()]));
        let x = rng.unit() * 2.0 - 1.0;
        records.push(record(Call::Acos, &[x.to_bits()]));
        let x = within(&mut rng, ACOS);
        records.push(record(Call::Acos, &[x.to_bits()]));
    }
    for _ in 0..DISTANCES {
        records.push(record(Call::PrimDist, &draw::prim_args(&mut rng)));
    }
    for _ in 0..BOUNDS {
        records.push(record(Call::PrimBounds, &draw::prim_args(&mut rng)[..9]));
    }
    records
}

/// Cases of root, arc cosine and unknown kinds: there are few of them.
fn stored_always(case: &Case) -> bool {
    case.args.len() == 1 || case.args[0] >= KINDS
}

fn record(call: Call, args: &[u32]) -> Record {
    let number = judge::number(call, &words::bytes(args), OUT_BYTES);
    let out = match number {
        DONE => answer(call, args),
        _ => [0; OUT_WORDS],
    };
    let mut record = [0; RECORD_WORDS];
    record[0] = call as u32;
    record[1] = number;
    record[ARGS..ARGS + args.len()].copy_from_slice(args);
    record[OUT..].copy_from_slice(&out);
    record
}
