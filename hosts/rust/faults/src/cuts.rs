//! Meetings of two units, cut and continued.

use crate::study::{End, Plan, Tally, Wrong, incorrect};
use crate::world::{ALL, ARCHIVE, Block, Goal, apart, hand_out, meet, pass, take};
use library::Library;
use plain::{BLOCK, EMPTY_BASE};
use workload::{Chance, Mix};

/// Two units that have been apart.
fn pair(round: u64, plan: &Plan, records: usize) -> Vec<Vec<u8>> {
    let mix = match round % 4 {
        0 => &Mix::CONFLICTS,
        1 => &Mix::MOVES,
        2 => &Mix::CASES,
        _ => &Mix::BENCH,
    };
    apart(2, records, mix, 1000 * plan.seed + round)
}

/// Meetings that nothing cuts.
pub fn none(library: &dyn Library, plan: &Plan) -> Tally {
    let mut tally = Tally::default();
    let mut chance = Chance::new(plan.seed);
    for round in 0..plan.count(40, 2000) {
        if !tally.goes_on(plan) {
            break;
        }
        let mut logs = pair(round, plan, chance.below(plan.count(120, 500)));
        let goal = Goal::of(&logs);
        let end = meet(library, &mut logs, 0, 1).and_then(|()| goal.reached(library, &logs));
        tally.count(|| format!("pair {round}"), end);
    }
    tally
}

/// Meetings cut after every block, then continued by either unit.
pub fn between(library: &dyn Library, plan: &Plan) -> Tally {
    let mut tally = Tally::default();
    for round in 0..plan.count(6, 100) {
        let logs = pair(round, plan, [40, 90, 160, 400][round as usize % 4]);
        let goal = Goal::of(&logs);
        for begins in [0, 1] {
            for blocks in 0..ALL {
                if !tally.goes_on(plan) {
                    return tally;
                }
                let (end, was_cut) = cut_after(library, &logs, &goal, begins, blocks);
                tally.count(
                    || format!("pair {round}, unit {begins} first, {blocks} blocks"),
                    end,
                );
                if !was_cut {
                    break;
                }
            }
        }
    }
    tally
}

/// Passes so many blocks, then begins anew with the other unit. Says whether the
/// meeting was cut before its end.
fn cut_after(
    library: &dyn Library,
    logs: &[Vec<u8>],
    goal: &Goal,
    begins: usize,
    blocks: usize,
) -> (End, bool) {
    let mut logs = logs.to_vec();
    let other = 1 - begins;
    let mut passed = 0;
    let mut run = || -> Result<bool, Wrong> {
        passed = pass(library, &mut logs, begins, other, blocks)?;
        passed += pass(library, &mut logs, other, begins, blocks - passed)?;
        meet(library, &mut logs, other, begins)?;
        goal.reached(library, &logs)
    };
    let end = run();
    (end, passed == blocks)
}

/// What arrives of a block when the link breaks after some bytes.
#[derive(Clone, Copy, Debug)]
enum Rest {
    Nothing,
    Zeros,
    /// The block before, which the receiver's buffer still held.
    Before,
    Noise,
}

/// Meetings cut after every byte of every block, then continued.
pub fn inside(library: &dyn Library, plan: &Plan) -> Tally {
    let mut tally = Tally::default();
    for round in 0..plan.count(1, 12) {
        let logs = pair(round, plan, [44, 20][round as usize % 2]);
        let goal = Goal::of(&logs);
        for (from, to) in [(0, 1), (1, 0)] {
            // The states of the taker before each block of the pass.
            let mut states = logs.clone();
            let mut before: Block = [0; BLOCK];
            loop {
                let Ok(block) = hand_out(library, &states[from], from, &states[to]) else {
                    tally.count(|| format!("pair {round}"), incorrect("not handed out"));
                    return tally;
                };
                if block[9] == 0 {
                    break;
                }
                for bytes in 0..BLOCK {
                    if !tally.goes_on(plan) {
                        return tally;
                    }
                    for rest in [Rest::Nothing, Rest::Zeros, Rest::Before, Rest::Noise] {
                        let arrived = arrived(&block, &before, bytes, rest, plan.seed);
                        let end = cut_inside(
                            library,
                            &states,
                            (from, to),
                            &goal,
                            [&block, &before],
                            &arrived,
                        );
                        tally.count(
                            || format!("pair {round}, to unit {to}, {bytes} bytes, {rest:?}"),
                            end,
                        );
                    }
                }
                if take(library, &mut states[to], to, &block).is_err() {
                    break;
                }
                before = block;
            }
        }
    }
    tally
}

fn arrived(block: &Block, before: &Block, bytes: usize, rest: Rest, seed: u64) -> Vec<u8> {
    let mut arrived = block[..bytes].to_vec();
    match rest {
        Rest::Nothing => (),
        Rest::Zeros => arrived.resize(BLOCK, 0),
        Rest::Before => arrived.extend(&before[bytes..]),
        Rest::Noise => {
            arrived.resize(BLOCK, 0);
            Chance::new(seed + bytes as u64).bytes(&mut arrived[bytes..]);
        }
    }
    arrived
}

/// The part is given to a take, which must refuse it unless it is a block that
/// was given; then the meeting goes on.
fn cut_inside(
    library: &dyn Library,
    states: &[Vec<u8>],
    (from, to): (usize, usize),
    goal: &Goal,
    given: [&Block; 2],
    arrived: &[u8],
) -> End {
    let mut logs = states.to_vec();
    match library.take(&mut logs[to], &EMPTY_BASE, &mut [], ARCHIVE, to as u32, arrived) {
        Err(_) if logs[to] != states[to] => return incorrect("refused, but the log changed"),
        Ok(()) if !given.iter().any(|block| block[..] == *arrived) => {
            return incorrect("a part of a block was taken");
        }
        _ => (),
    }
    meet(library, &mut logs, from, to)?;
    goal.reached(library, &logs)
}
