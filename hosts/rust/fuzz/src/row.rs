//! Rows handed out, tried and taken by logs that are mostly sound: blocks swapped,
//! doubled, left out, damaged and sealed again.

use crate::compare::{both, show};
use crate::index;
use crate::input::Input;
use crate::life::{ARCHIVE, Life, State, seal};
use library::{REPORT, Trial};
use plain::{BLOCK, FILE, INDEX, LOG, TREE};

/// A row that one unit hands out to another, and what happened to it on its way.
fn row(input: &mut Input, from: &State, to: &State, unit: u32) -> Vec<u8> {
    let mut asked = to.vector();
    if input.one_in(4) {
        let unit = input.below(8);
        asked[unit] = asked[unit].saturating_sub(input.byte().into());
    }
    let lent = vec![0xa5; FILE];
    let (count, written) = both(1, &[&lent], |library, lent| {
        library.hand_out_row(&from.log, &from.base, ARCHIVE, unit, &asked, &mut lent[0])
    });
    let mut row = written[0][..BLOCK * usize::from(count.unwrap_or(0))].to_vec();
    let blocks = row.len() / BLOCK;
    for _ in 0..input.below(3) {
        let (one, other) = (input.below(blocks), input.below(blocks));
        match input.byte() % 4 {
            0 if one != other => {
                let (first, second) = row.split_at_mut(BLOCK * one.max(other));
                let at = BLOCK * one.min(other);
                first[at..at + BLOCK].swap_with_slice(&mut second[..BLOCK]);
            }
            1 if blocks > 0 => row.extend_from_within(BLOCK * one..BLOCK * (one + 1)),
            2 if blocks > 0 => {
                let block = &mut row[BLOCK * one..BLOCK * (one + 1)];
                input.patch(block, BLOCK);
                if input.byte() % 2 == 0 {
                    seal(block);
                }
            }
            _ => (),
        }
    }
    if input.one_in(16) {
        row.truncate(input.below(row.len() + 1));
    }
    row
}

pub fn row_calls(data: &[u8]) {
    let mut input = Input::new(data);
    let life = Life::drawn(&mut input);
    let (giver, taker) = (input.below(8), input.below(8));
    let mut state = life.state(taker, &mut input);
    let from = life.state(giver, &mut input);
    let row = row(&mut input, &from, &state, giver as u32);
    state.patch(&mut input, 16);
    let State { log, base } = &state;
    let unit = input.unit();
    let archive = ARCHIVE + input.one_in(32) as u32;
    let lent = [vec![0xa5; LOG], vec![0xa5; TREE], vec![0xa5; REPORT]];
    let lent: [&[u8]; 3] = std::array::from_fn(|i| lent[i].as_slice());
    let (tried, left) = both(2, &lent, |library, lent| {
        let [copy, tree, report] = lent else {
            unreachable!("three buffers");
        };
        let mut trial = Trial {
            copy: std::mem::take(copy),
            tree: std::mem::take(tree),
            report: std::mem::take(report),
        };
        let answer = library.try_row(log, base, archive, unit, &row, &mut trial);
        (*copy, *tree, *report) = (trial.copy, trial.tree, trial.report);
        answer
    });
    let index = index::lent(&mut input, &state);
    let (taken, after) = both(3, &[log, &index], |library, lent| {
        let [log, index] = lent else {
            unreachable!("two buffers");
        };
        library.take_row(log, base, index, archive, unit, &row)
    });
    if index.is_empty() || index.len() == INDEX {
        assert_eq!(tried.err(), taken.err(), "the answers differ");
    }
    if let Ok(taken) = taken {
        assert!(after[0] == left[0], "the logs differ");
        show(&after[0], base);
        if taken.taken > 0 && !index.is_empty() {
            let left = State {
                log: after[0].clone(),
                base: base.clone(),
            };
            let fresh = index::fresh(&left);
            assert!(after[1] == fresh, "the index and a fresh one differ");
        }
    }
}
