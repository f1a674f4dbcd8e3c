//! One call compared whole: the number sent and each byte of `out`.

use super::answer::answer;
use super::{judge, words_of};
use crate::call::{Call, OUT_BYTES, OUT_WORDS};
use crate::judge::DONE;
use crate::viewer;
use crate::words::{self, same};

/// What `out` holds before each call, so that a byte left as it was can be told.
pub const BEFORE: u8 = 0xa5;

/// Calls our library and compares; gives the number sent, or what differs and on which inputs.
pub fn check(call: Call, args: &[u8], out: &mut [u8]) -> Result<u32, String> {
    let number = judge::number(call, args, out.len());
    let mut want = [0; OUT_WORDS];
    if number == DONE {
        want = answer(call, &words_of(args));
    }
    out.fill(BEFORE);
    let sent = viewer::send(call, args, out);
    if sent != number {
        let what = format!("sent {sent}, must send {number}");
        return Err(different(call, args, out.len(), &what));
    }
    compare_out(call, out, &want).map_err(|what| different(call, args, out.len(), &what))?;
    Ok(sent)
}

/// The same, where the number is known beforehand, so that the judge is tested too.
pub fn expect(call: Call, args: &[u8], out: &mut [u8], number: u32) -> Result<(), String> {
    let judged = judge::number(call, args, out.len());
    if judged != number {
        let what = format!("our judge says {judged}, the case says {number}");
        return Err(different(call, args, out.len(), &what));
    }
    check(call, args, out).map(|_| ())
}

pub fn compare_out(call: Call, out: &[u8], want: &[u32; OUT_WORDS]) -> Result<(), String> {
    if out.len() < OUT_BYTES {
        return untouched(out, 0);
    }
    let mut bytes = [0; OUT_BYTES];
    words::put(&mut bytes, want);
    // Word by word only where some bit differs: it takes longer.
    if out[..OUT_BYTES] != bytes {
        compare_words(call, out, want)?;
    }
    untouched(&out[OUT_BYTES..], OUT_BYTES)
}

fn compare_words(call: Call, out: &[u8], want: &[u32; OUT_WORDS]) -> Result<(), String> {
    for (i, &want) in want.iter().enumerate() {
        let have = words::word(out, i);
        let named = i < call.named_words();
        if !same(have, want, by_bits(call) || !named) {
            let (have, want) = (words::show(have), words::show(want));
            return Err(format!("word {i} of out is {have}, must be {want}"));
        }
    }
    Ok(())
}

/// Root and arc cosine are settled bit for bit; elsewhere zeros of both signs are equal.
fn by_bits(call: Call) -> bool {
    matches!(call, Call::Root | Call::Acos)
}

fn untouched(bytes: &[u8], first: usize) -> Result<(), String> {
    match bytes.iter().position(|&b| b != BEFORE) {
        None => Ok(()),
        Some(i) => Err(format!("byte {} of out was written", first + i)),
    }
}

fn different(call: Call, args: &[u8], out_len: usize, what: &str) -> String {
    format!(
        "{}: {what}\n  args of {} bytes: {}\n  out of {out_len} bytes",
        call.name(),
        args.len(),
        words::show_all(&words::all(args)),
    )
}
