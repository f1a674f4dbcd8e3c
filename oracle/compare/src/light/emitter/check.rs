//! One call compared whole: the number sent and each byte of `out`.

use super::judge::{self, RECORD_BYTES};
use crate::call::{Call, OUT_WORDS};
use crate::judge::DONE;
use crate::scalar::check::{compare_out, BEFORE};
use crate::source::{light, put_vec3, vec3};
use crate::viewer;
use crate::words;
use interflect::scene::QuadLight;
use interflect::shade::emitter_hit;

const CALL: Call = Call::EmitterHit;

/// Calls our library and compares; gives the number sent, or what differs and on which inputs.
pub fn check(lights: &[u8], args: &[u8], out: &mut [u8]) -> Result<u32, String> {
    let number = judge::number(lights, args, out.len());
    let want = if number == DONE { answer(lights, args) } else { [0; OUT_WORDS] };
    out.fill(BEFORE);
    let sent = viewer::send_records(CALL, lights, args, out);
    if sent != number {
        return Err(different(lights, args, out, &format!("sent {sent}, must send {number}")));
    }
    compare_out(CALL, out, &want).map_err(|what| different(lights, args, out, &what))?;
    Ok(sent)
}

/// The same, where the number is known beforehand, so that the judge is tested too.
pub fn expect(lights: &[u8], args: &[u8], out: &mut [u8], number: u32) -> Result<(), String> {
    let judged = judge::number(lights, args, out.len());
    if judged != number {
        let what = format!("our judge says {judged}, the case says {number}");
        return Err(different(lights, args, out, &what));
    }
    check(lights, args, out).map(|_| ())
}

/// Records as bytes in the source's form.
pub fn panels(lights: &[u8]) -> Vec<QuadLight> {
    lights.chunks(RECORD_BYTES).map(|record| light(&words::all(record))).collect()
}

fn answer(lights: &[u8], args: &[u8]) -> [u32; OUT_WORDS] {
    let args = words::all(args);
    let hit = emitter_hit(&panels(lights), vec3(&args), vec3(&args[3..]), f32::from_bits(args[6]));
    let mut out = [0; OUT_WORDS];
    if let Some((t, emission)) = hit {
        out[0] = 1;
        out[1] = t.to_bits();
        put_vec3(&mut out[2..], emission);
    }
    out
}

fn different(lights: &[u8], args: &[u8], out: &[u8], what: &str) -> String {
    let mut lines = vec![
        format!("{}: {what}", CALL.name()),
        format!("args of {} bytes: {}", args.len(), words::show_all(&words::all(args))),
        format!("out of {} bytes, lights of {}:", out.len(), lights.len()),
    ];
    lines.extend(lights.chunks(RECORD_BYTES).map(|record| format!("  {:08x?}", words::all(record))));
    lines.join("\n  ")
}
