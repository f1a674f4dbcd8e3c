//! What is kept of turns, how figures stand, and that all rooms are asked soundly: with no library of ours.

use super::asks::still;
use super::race::Side;
use super::rooms::{all, Args, Inputs};
use super::table::figure;
use crate::call::Call;
use crate::judge::DONE;
use crate::plan::judge;
use crate::plan::Lent;

#[test]
fn laps_count_by_the_turns_in_which_all_calls_took_least_together() {
    // Two laps over ten inputs; in four turns, the seconds of calls 1 and 0 in each lap.
    let turns =
        [[[5.0, 4.0], [1.0, 2.0]], [[3.0, 4.0], [9.0, 0.5]], [[2.0, 6.0], [2.0, 2.0]], [[9.0, 9.0], [9.0, 9.0]]];
    let mut side = Side::new(&[1, 0], &[2.5e-4, 2.5e-4], 10);
    for turn in turns {
        side.turn(|call, range| {
            assert_eq!(range.len(), 5);
            turn[range.start / 5][1 - call]
        });
    }
    let times: Vec<(usize, f64, f64)> = side.times().map(|(call, time)| (call, time.least, time.second)).collect();
    assert_eq!(times, [(1, 4.0e8, 4.0e8), (0, 6.0e8, 8.0e8)]);
}

#[test]
fn figures_have_three_digits_or_more() {
    let figures = [0.806, 9.996, 15.66, 99.96, 312.4, 22_288.0, -3.0].map(figure);
    assert_eq!(figures, ["0.81", "10.0", "15.7", "100", "312", "22,288", "-3.00"]);
}

#[test]
fn inputs_are_sound() {
    let calls = [Call::Query, Call::Trace, Call::SoftShadow, Call::DirectDiffuse, Call::Direct];
    for mut room in all() {
        for (call, tree) in calls.into_iter().flat_map(|call| [(call, 0), (call, 1)]) {
            let inputs = room.inputs(call, Inputs::Drawn(100));
            let (still_call, still) = still(call, tree, &inputs);
            room.by(tree);
            let sound = |lent: &mut Lent, call: Call, args: &Args| {
                lent.args(&args[..call.args_words()]);
                assert_eq!(judge::number(call, lent), DONE, "{call:?} in {}", room.name);
            };
            inputs.iter().for_each(|args| sound(&mut room.lent, call, args));
            still.iter().for_each(|args| sound(&mut room.lent, still_call, args));
        }
    }
}
