//! Each word of each call at its limits and just past them, words that are no numbers, unknown
//! kinds, and words that a kind does not use.

use super::{prim_args, prim_case, Case};
use crate::call::Call;
use crate::chosen::{about, shape, NOT_FINITE, UNKNOWN_KINDS};
use crate::judge::{self, BAD_WORD, DONE, WRONG_KIND};
use crate::scalar::judge::{ACOS, ROOT};

pub fn limits() -> Vec<Case> {
    let mut cases = Vec::new();
    for (call, range) in [(Call::Root, ROOT), (Call::Acos, ACOS)] {
        for (word, number) in about(range, DONE) {
            let args = vec![word];
            cases.push(Case { call, args, number });
        }
    }
    for call in [Call::PrimDist, Call::PrimBounds] {
        for kind in 0..judge::KINDS {
            of_kind(call, kind, &mut cases);
        }
        for unknown in UNKNOWN_KINDS {
            let mut args = sound(0);
            args[0] = unknown;
            cases.push(prim_case(call, args, BAD_WORD));
        }
    }
    cases
}

/// Args that are well inside the domain.
pub fn sound(kind: u32) -> Vec<u32> {
    prim_args(kind, shape(kind), [-3.0, 7.0, 2.5])
}

/// What a sound primitive gets.
pub fn number_of_sound(call: Call, kind: u32) -> u32 {
    match (call, kind) {
        (Call::PrimBounds, judge::PLANE) => WRONG_KIND,
        _ => DONE,
    }
}

fn of_kind(call: Call, kind: u32, cases: &mut Vec<Case>) {
    let number = number_of_sound(call, kind);
    let mut put = |place: usize, word: u32, number: u32| {
        let mut args = sound(kind);
        args[place] = word;
        cases.push(prim_case(call, args, number));
    };
    let ranges = judge::ranges(kind).unwrap();
    for (i, &range) in ranges.iter().enumerate() {
        for (word, number) in about(range, number) {
            put(1 + i, word, number);
        }
    }
    for i in ranges.len()..8 {
        for word in NOT_FINITE {
            put(1 + i, word, number);
        }
        put(1 + i, (-1f32).to_bits(), number);
        put(1 + i, f32::MAX.to_bits(), number);
    }
    if call == Call::PrimDist {
        for i in 9..12 {
            for (word, number) in about(judge::POINT, number) {
                put(i, word, number);
            }
        }
    }
}
