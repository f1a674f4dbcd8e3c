//! Several reasons to refuse at once: of those that no other hides the lowest is sent. What each
//! gets and what it hides is written out in these files, apart from the judge.

mod base;
mod reason;
mod reasons;

use super::check::expect;
use super::lent::Lent;
use crate::call::Call;
use crate::judge::{DONE, NO_ROOM};
use crate::progress::through;
use base::Base;
use reason::Reason;

/// Every set of up to so many reasons that can be had together.
pub fn run(together: usize) -> Result<String, String> {
    let mut sent = [0; 10];
    let bases = [false, true].map(Base::new);
    let ways = |base| Call::with_trees().map(move |way| (base, way));
    let ways: Vec<(&Base, (Call, u32))> = bases.iter().flat_map(ways).collect();
    for (base, (call, tree)) in through("refusals", ways, "calls") {
        let piece = matches!(call, Call::AddPlane | Call::AddObject);
        let mut sets = Sets {
            call,
            crowded: base.crowded && piece,
            reasons: reasons::reasons(call, tree, base),
            fresh: base.lend(call, tree),
            lent: base.lend(call, tree),
            sent: &mut sent,
        };
        sets.from(0, &mut Vec::new(), together)?;
    }
    Ok(format!("up to {together}; of each number {sent:?}"))
}

struct Sets<'a> {
    call: Call,
    /// Whatever else there is, what is to enter finds no room for its cutters.
    crowded: bool,
    reasons: Vec<Reason>,
    fresh: Lent,
    lent: Lent,
    sent: &'a mut [usize; 10],
}

impl Sets<'_> {
    /// Tries a set, then with it each that has up to `left` more of the reasons from `next` on.
    fn from(&mut self, next: usize, set: &mut Vec<usize>, left: usize) -> Result<(), String> {
        self.hold(set)?;
        if left == 0 {
            return Ok(());
        }
        for i in next..self.reasons.len() {
            let meets = |&other: &usize| self.reasons[other].meets(&self.reasons[i]);
            if !set.iter().any(meets) {
                set.push(i);
                self.from(i + 1, set, left - 1)?;
                set.pop();
            }
        }
        Ok(())
    }

    fn hold(&mut self, set: &[usize]) -> Result<(), String> {
        let reasons: Vec<&Reason> = set.iter().map(|&i| &self.reasons[i]).collect();
        let hidden = |reason: &Reason| reasons.iter().any(|other| other.of.hides(reason.of));
        let seen = reasons.iter().filter(|reason| !hidden(reason));
        let crowded = self.crowded.then_some(NO_ROOM);
        let numbers = seen.map(|reason| reason.number).chain(crowded);
        let number = numbers.min().unwrap_or(DONE);

        self.lent.copy(&self.fresh);
        for change in reasons.iter().flat_map(|reason| &reason.changes) {
            change.make(&mut self.lent);
        }
        self.sent[number as usize] += 1;
        expect(self.call, &mut self.lent, number)
    }
}
