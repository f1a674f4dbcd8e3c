//! One call on a plan compared whole: the number sent and each byte that was lent or lies about.

use super::layout::{NODES_WORDS, NODE_WORDS, SECTIONS};
use super::lent::{Lent, Table};
use super::{exit, judge};
use crate::call::Call;
use crate::tree::table::START;
use crate::viewer;
use crate::words::{self, same};
use interflect::scene::Scene;
use std::fmt::Write;

/// Calls our library and compares; gives the number sent, or what differs and on which inputs.
pub fn check(call: Call, lent: &mut Lent) -> Result<u32, String> {
    compare(call, lent, None)
}

/// The same, where the plan's scene is at hand.
pub fn check_in(scene: &Scene, call: Call, lent: &mut Lent) -> Result<u32, String> {
    compare(call, lent, Some(scene))
}

/// The same, where the number is known beforehand, so that the judge is tested too.
pub fn expect(call: Call, lent: &mut Lent, number: u32) -> Result<(), String> {
    let judged = judge::number(call, lent);
    if judged != number {
        let what = format!("our judge says {judged}, the case says {number}");
        lent.plan.begin();
        return Err(different(call, lent, &what));
    }
    check(call, lent).map(|_| ())
}

fn compare(call: Call, lent: &mut Lent, scene: Option<&Scene>) -> Result<u32, String> {
    lent.out.mark();
    let number = judge::number(call, lent);
    exit::tell(call, number, lent, scene);
    let sent = viewer::lend(call, lent);
    if sent != number {
        let what = format!("sent {sent}, must send {number}");
        return Err(different(call, lent, &what));
    }
    as_floats(call, lent);
    let tables = [
        ("out", &lent.out),
        ("plan", &lent.plan),
        ("nodes", &lent.nodes),
        ("order", &lent.order),
        ("args", &lent.args),
        ("offered nodes", &lent.offered_nodes),
        ("offered order", &lent.offered_order),
    ];
    for (name, table) in tables {
        if let Some(what) = wrong(name, table) {
            return Err(different(call, lent, &what));
        }
    }
    Ok(sent)
}

/// What is a float is compared as one, and so are the corners of a tree that was built: zeros of
/// both signs are equal.
fn as_floats(call: Call, lent: &mut Lent) {
    match call {
        Call::Query | Call::DistMat | Call::SoftShadow => take_zeros(&mut lent.out, 0..1),
        Call::Trace => take_zeros(&mut lent.out, 1..5),
        Call::Direct | Call::DirectDiffuse => take_zeros(&mut lent.out, 0..3),
        Call::Build => {
            let corner = |i: &usize| i % NODE_WORDS < START;
            take_zeros(&mut lent.nodes, (0..NODES_WORDS).filter(corner));
        }
        _ if call.asks() => call.stray(),
        _ => {}
    }
}

/// Where words differ and are equal as floats, ours are what must be.
fn take_zeros(table: &mut Table, words: impl Iterator<Item = usize>) {
    if table.wrong().is_none() {
        return;
    }
    for i in words {
        let (have, want) = (table.word(i), table.must_word(i));
        if have != want && same(have, want, false) {
            table.must_put(i, &[have]);
        }
    }
}

fn wrong(name: &str, table: &Table) -> Option<String> {
    let at = table.wrong()?;
    if at < 0 || at as usize >= table.len() {
        return Some(format!("byte {at} from {name} was written, outside of it"));
    }
    let i = at as usize / 4;
    let (have, want) = (words::show(table.word(i)), words::show(table.must_word(i)));
    let place = if name == "plan" { place(i) } else { String::new() };
    Some(format!("word {i} of {name}{place} is {have}, must be {want}"))
}

/// Where a word of the plan stands.
fn place(i: usize) -> String {
    let found = SECTIONS.iter().find(|s| i < s.at(s.records));
    found.map_or(String::new(), |s| {
        let (record, word) = ((i - s.first) / s.words, (i - s.first) % s.words);
        format!(" (word {word} of {} {record})", s.name)
    })
}

fn different(call: Call, lent: &Lent, what: &str) -> String {
    let lines = [
        format!("{}: {what}", call.name()),
        format!("args of {} bytes: {}", lent.args.len(), words::show_all(&lent.args.before())),
        format!(
            "out of {} bytes, nodes of {}, order of {}, tree {}",
            lent.out.len(),
            lent.nodes.len(),
            lent.order.len(),
            lent.tree
        ),
        trees(call, lent),
        format!(
            "plan of {} bytes, before the call, but for records of zeros:{}",
            lent.plan.len(),
            records(&lent.plan.before())
        ),
    ];
    lines.join("\n  ")
}

/// The tree that the call reads, in words, without the zeros at its end.
fn trees(call: Call, lent: &Lent) -> String {
    let (nodes, order) = match call {
        Call::Offer => (&lent.offered_nodes, &lent.offered_order),
        _ if call.asks() && lent.tree == 1 => (&lent.nodes, &lent.order),
        _ => return "no tree is read".to_string(),
    };
    let mut text = format!("tree of {} and {} bytes:", nodes.len(), order.len());
    let (nodes, order) = (nodes.before(), order.before());
    let used = |words: &[u32]| words.iter().rposition(|&word| word != 0).map_or(0, |i| i + 1);
    for (i, node) in nodes[..used(&nodes)].chunks(NODE_WORDS).enumerate() {
        write!(text, "\n    node {i}: {node:08x?}").unwrap();
    }
    write!(text, "\n    order: {:?}", &order[..used(&order)]).unwrap();
    text
}

/// The plan in words, without the zeros at the end of a record.
fn records(plan: &[u32]) -> String {
    let mut text = String::new();
    for section in SECTIONS {
        for record in 0..section.records {
            let at = section.at(record).min(plan.len());
            let words = &plan[at..(at + section.words).min(plan.len())];
            if let Some(last) = words.iter().rposition(|&word| word != 0) {
                write!(text, "\n    {} {record}:", section.name).unwrap();
                for word in &words[..=last] {
                    write!(text, " {word:08x}").unwrap();
                }
            }
        }
    }
    text
}
