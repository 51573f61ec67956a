//! Rows tried: every length, every number that stops one, and the entries that
//! become disputed.

use crate::blocks::unsound_logs;
use crate::kit::{Calls, Written, block_of, changed, lent, log_of, sealed};
use make_vectors::chain::blocks_of_six;
use make_vectors::examples::{ROOT, paper, record};
use make_vectors::list::List;
use plain::{BLOCK, FILE, LOG};

pub fn list() -> Written {
    let mut calls = Calls::new("rows tried on a copy of the log");
    lengths(&mut calls);
    stops(&mut calls);
    disputes(&mut calls);
    calls.written("try", "rows of blocks that are tried")
}

/// A trial by unit 2, of archive 7, on a log lent from outside.
fn try_row(log: &[u8], row: &[u8]) -> impl FnOnce(&mut List) -> u8 {
    move |list| list.try_row(2, lent(log), 7, 2, row)
}

fn lengths(calls: &mut Calls) {
    let none = vec![0; LOG];
    let held = log_of(&paper());
    let block = block_of(&paper());
    let full = log_of(&blocks_of_six(85)[..508]);
    let mut row = vec![0; FILE];
    let blocks = plain::hand_out_row(&full, &plain::EMPTY_BASE, 7, 1, &[0; 8], &mut row).expect("a sound log");
    row.truncate(BLOCK * usize::from(blocks));
    calls.call(0, "no block: the vector is the held one", try_row(&held, &[]));
    calls.call(0, "85 blocks into an empty log", try_row(&none, &row));
    row.extend_from_within(..BLOCK);
    calls.call(0, "86 blocks, the last with nothing new", try_row(&none, &row));
    row.extend_from_within(..BLOCK);
    calls.call(2, "87 blocks", try_row(&none, &row));
    calls.call(2, "a part of a block", try_row(&none, &block[..BLOCK - 1]));
    let part = [&block[..], &[0]].concat();
    calls.call(2, "a block and a byte", try_row(&held, &part));
    for (what, log) in unsound_logs() {
        let both = format!("a lent log with {what}, and a part of a block: 2");
        calls.call(2, &both, try_row(&log, &part));
        calls.call(19, &format!("a lent log with {what}"), try_row(&log, &block));
    }
    calls.call(1, "a log one byte short, and 87 blocks: 1", try_row(&none[1..], &row));
    calls.call(21, "own unit 8, and a part of a block: 21", |list| {
        list.try_row(2, lent(&held), 7, 8, &part)
    });
    calls.call(21, "own unit 255, and a log that is not sound: 21", |list| {
        let (_, log) = &unsound_logs()[0];
        list.try_row(2, lent(log), 7, 255, &block)
    });
}

fn stops(calls: &mut Calls) {
    let none = vec![0; LOG];
    let good = blocks_of_six(3);
    let first = block_of(&good[..6]);
    let (second, third) = (block_of(&good[6..12]), block_of(&good[12..]));
    let mut stop = |number: u8, shows: &str, block: Vec<u8>| {
        let row = [&first[..], &block, &third].concat();
        calls.call(0, &format!("stopped by {number}: {shows}"), try_row(&none, &row));
    };
    stop(3, "a block without letters", vec![0; BLOCK]);
    stop(4, "a changed byte", changed(&second, &[(60, 1)]));
    stop(5, "a count of 7", sealed(&second, &[(9, 7)]));
    stop(6, "another archive", sealed(&second, &[(7, 1)]));
    stop(7, "a malformed record", sealed(&second, &[(29, 9)]));
    stop(8, "a block left out", third.clone());
    let made = |records: &[[u8; 80]]| block_of(records);
    let apart = [
        record(5, &[1], 2, ROOT, "X", 1, 3),
        record(6, &[0, 0, 0, 0, 0, 1], 2, ROOT, "Y", 2, 3),
    ];
    stop(9, "seen that is not closed", made(&apart));
    stop(10, "a held identity with other bytes", sealed(&first, &[(60, b'Z')]));
    let held = log_of(&blocks_of_six(86)[..511]);
    let more = [
        record(7, &[], 2, ROOT, "P", 1, 3),
        record(7, &[0, 0, 0, 0, 0, 0, 0, 1], 2, ROOT, "Q", 2, 3),
    ];
    let row = [made(&more[..1]), made(&more[1..])].concat();
    calls.call(0, "stopped by 11: a 513th record", try_row(&held, &row));
    let row = [&first[..], &first, &second].concat();
    calls.call(0, "a block twice: the second has nothing new", try_row(&none, &row));
}

fn disputes(calls: &mut Calls) {
    let a = |unit: u8| record(unit, &[], 2, ROOT, "A", unit + 1, 3);
    let mut dispute = |shows: &str, log: &[[u8; 80]], new: &[[u8; 80]]| {
        calls.call(0, shows, try_row(&log_of(log), &block_of(new)));
    };
    dispute("an entry that was there becomes disputed", &[a(0)], &[a(1)]);
    dispute("an entry that was not there", &[a(1)], &[a(0)]);
    dispute("one that another aside disputed before", &[a(0), a(1)], &[a(2)]);
    let settle = record(0, &[1, 1], 6, (1, 1), "", 0, 4);
    dispute("one that is no longer disputed", &[a(0), a(1)], &[settle]);
    let remove = record(2, &[1, 0, 1], 4, (0, 1), "", 0, 4);
    let store = record(1, &[1], 3, (0, 1), "", 9, 4);
    dispute(
        "one that was marked and removed, and stays now",
        &[a(0), a(2), remove],
        &[store],
    );
    let b = |unit: u8| record(unit, &[], 2, ROOT, "B", unit + 1, 3);
    dispute(
        "two, by rank of their makers",
        &[a(0), b(1)],
        &[b(2), a(3)],
    );
}
