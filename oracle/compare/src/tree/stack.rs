//! How deep the stack of each call goes: a thread's stack is marked below the caller, the call made,
//! and the lowest place looked for that no longer holds the mark.

use super::make::{self, Form, Lean, Slack};
use super::rows::spheres;
use super::source::boxes;
use crate::call::{Call, OUT_BYTES};
use crate::plan::layout::{LIGHTS, OBJECTS};
use crate::plan::{sound, source, Lent};
use crate::rng::Rng;
use crate::scalar::cases::{light, limits};
use crate::{viewer, words};
use std::hint::black_box;
use std::thread;

/// No call may use more.
const MOST: usize = 512 << 10;
/// What is marked, and what is left free just below the caller.
const MARKED: usize = 768 << 10;
const FREE: usize = 4 << 10;
const MARK: u8 = 0x5a;

pub fn run() -> Result<String, String> {
    let mut most = (0, "");
    for &call in Call::ALL {
        let used = used(call);
        if used > MOST {
            return Err(format!("{} uses {used} bytes of stack", call.name()));
        }
        most = most.max((used, call.name()));
    }
    Ok(format!("at most {} bytes, of {}", most.0, most.1))
}

/// What each call uses, a line each.
pub fn tell() {
    for &call in Call::ALL {
        match used(call) {
            0 => println!("{:<22} below {FREE}", call.name()),
            used => println!("{:<22} {used:>8}", call.name()),
        }
    }
}

/// In a thread of its own, with all that is lent made before.
fn used(call: Call) -> usize {
    let work = move || {
        let mut out = [0; OUT_BYTES];
        if Call::SCALAR.contains(&call) {
            let args = words::bytes(&values(call));
            return measure(call, || viewer::send(call, &args, &mut out));
        }
        if Call::RECORDS.contains(&call) {
            let lights = words::bytes(&sound::light().repeat(LIGHTS.records));
            let ray = words::bytes(&words::bits(&[&sound::POINT[..], &sound::DIRECTION, &[50.0]].concat()));
            return measure(call, || viewer::send_records(call, &lights, &ray, &mut out));
        }
        let mut lent = lent(call);
        measure(call, || viewer::lend(call, &mut lent))
    };
    let thread = thread::Builder::new().stack_size(2 * MARKED).spawn(work);
    thread.expect("a thread").join().expect("the call ends")
}

/// Args of a call that is lent nothing else.
fn values(call: Call) -> Vec<u32> {
    match call {
        Call::Root | Call::Acos => words::bits(&[0.3]),
        Call::PrimDist | Call::PrimBounds => limits::sound(6),
        _ => light::sound(call),
    }
}

/// A full plan of spheres, each of whose splits leaves one out, so that calls go deep, and of lights that the
/// place of `sound` sees; a tree of the greatest depth that may stand, and one as deep as there are objects on
/// offer.
fn lent(call: Call) -> Lent {
    let mut rng = Rng::new(9);
    let powers: Vec<f32> = (-214..=41).map(|i| 1.25f64.powi(i) as f32).collect();
    let mut full = spheres(&powers);
    let bounds = boxes(&source::scene(&full).objects);
    let mut deep = |depth| make::tree(&mut rng, &bounds, Form::Chain(depth, Lean::Left), Slack::None);
    let (standing, offered) = (deep(63), deep(OBJECTS.records - 1));
    let last = full.objects[0].args(|| 0);
    if call == Call::AddObject {
        full.objects.pop();
    }
    full.lights = vec![sound::light(); LIGHTS.records - usize::from(call == Call::AddLight)];
    let mut lent = Lent::new(&full, 0);
    lent.stand(&standing);
    lent.offer(&offered);
    lent.tree = 1;
    match call {
        Call::AddObject => lent.args(&last),
        // A plane's kind; the rest 0.
        Call::AddPlane => lent.args(&[0, 0, 0, 2, 0, 0, 0, 0, 0, 0, 0, 0, 0, 0, 0, 0]),
        _ => lent.args(&sound::args(call)),
    }
    lent
}

#[inline(never)]
fn measure(call: Call, make: impl FnOnce() -> u32) -> usize {
    let here = 0u8;
    let top = (&raw const here).cast_mut().wrapping_sub(FREE);
    let place = |i: usize| top.wrapping_sub(i);
    for i in 0..MARKED {
        unsafe { place(i).write_volatile(MARK) };
    }
    let number = black_box(make());
    assert!(matches!(number, 0 | 7), "{} got {number}", call.name());
    let lowest = (0..MARKED).rev().find(|&i| unsafe { place(i).read_volatile() } != MARK);
    lowest.map_or(0, |i| i + FREE)
}
