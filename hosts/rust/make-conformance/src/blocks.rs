//! Blocks taken and refused.

use crate::damaged::{MALFORMED, base};
use crate::kit::{Calls, Written, block_of, changed, lent, log_of, sealed};
use make_vectors::chain::blocks_of_six;
use make_vectors::examples::{ROOT, paper, record};
use make_vectors::list::List;
use plain::{BLOCK, LOG};

pub fn list() -> Written {
    let mut calls = Calls::new("blocks: taken, and refused for each cause");
    lent_and_unit(&mut calls);
    unsound(&mut calls);
    blocks(&mut calls);
    records(&mut calls);
    two_faults(&mut calls);
    taken(&mut calls);
    calls.written("blocks", "blocks given to a take")
}

/// A take by unit 2, of archive 7, into a log lent from outside.
fn take(log: &[u8], block: &[u8]) -> impl FnOnce(&mut List) -> u8 {
    move |list| list.take(2, lent(log), 7, 2, block)
}

fn lent_and_unit(calls: &mut Calls) {
    let none = vec![0; LOG];
    let block = block_of(&paper());
    calls.call(1, "a log of no bytes", take(&[], &block));
    calls.call(1, "a log one byte short", take(&none[1..], &block));
    calls.call(1, "a log one byte long", take(&vec![0; LOG + 1], &block));
    calls.call(21, "own unit 8", |list| {
        list.take(2, lent(&none), 7, 8, &block)
    });
    calls.call(21, "own unit 255", |list| {
        list.take(2, lent(&none), 7, 255, &block)
    });
}

/// Logs that are not sound, by what is wrong with them.
pub fn unsound_logs() -> Vec<(&'static str, Vec<u8>)> {
    let records = paper();
    let log = log_of(&records);
    let mut gap = log_of(&records[..2]);
    gap[240..320].copy_from_slice(&records[2]);
    let open = [
        record(0, &[], 2, ROOT, "A", 1, 3),
        record(1, &[1], 2, ROOT, "B", 2, 3),
        record(2, &[0, 1], 2, ROOT, "C", 3, 3),
    ];
    let not_next = [records[0], record(0, &[2], 2, ROOT, "B", 2, 3)];
    let above = [records[0], record(1, &[1, 0, 1], 2, ROOT, "B", 2, 3)];
    vec![
        ("a malformed record", changed(&log, &[(31, 0)])),
        ("a record behind a place of zeros", gap),
        (
            "two records in falling rank",
            log_of(&[records[0], records[2], records[1]]),
        ),
        (
            "a record twice",
            log_of(&[records[0], records[1], records[1]]),
        ),
        ("a number left out", log_of(&not_next)),
        ("a record that has seen what is not there", log_of(&above)),
        ("seen that is not closed", log_of(&open)),
    ]
}

fn unsound(calls: &mut Calls) {
    let block = block_of(&paper());
    for (what, log) in unsound_logs() {
        calls.call(19, &format!("a lent log with {what}"), take(&log, &block));
    }
}

fn blocks(calls: &mut Calls) {
    let none = vec![0; LOG];
    let block = block_of(&paper());
    let mut call = |number, shows: &str, block: &[u8]| {
        calls.call(number, shows, take(&none, block));
    };
    call(2, "no bytes", &[]);
    call(2, "a block without its last byte", &block[..BLOCK - 1]);
    call(2, "a file of two blocks", &base());
    call(3, "the letters SAB2", &sealed(&block, &[(3, b'2')]));
    call(
        4,
        "a byte of a record changed",
        &changed(&block, &[(60, 1)]),
    );
    call(4, "the first sum changed", &changed(&block, &[(508, 1)]));
    call(4, "the second sum changed", &changed(&block, &[(511, 1)]));
    call(5, "sender 8", &sealed(&block, &[(8, 8)]));
    call(5, "a count of 7", &sealed(&block, &[(9, 7)]));
    call(5, "a count of 255", &sealed(&block, &[(9, 255)]));
    call(
        5,
        "a byte in an unused record place",
        &sealed(&block, &[(507, 1)]),
    );
    call(
        5,
        "a count below the records that stand there",
        &sealed(&block, &[(9, 2)]),
    );
    call(6, "another archive", &sealed(&block, &[(7, 1)]));
}

fn records(calls: &mut Calls) {
    let none = vec![0; LOG];
    let good = blocks_of_six(2);
    let held = log_of(&good[..6]);
    let second = block_of(&good[6..]);
    for (_, shows, record, changes) in MALFORMED {
        let changes: Vec<(usize, u8)> = changes
            .iter()
            .map(|(at, byte)| (28 + 80 * record + at, *byte))
            .collect();
        calls.call(
            7,
            &format!("malformed: {shows}"),
            take(&held, &sealed(&second, &changes)),
        );
    }
    let open = [
        record(0, &[], 2, ROOT, "A", 1, 3),
        record(1, &[1], 2, ROOT, "B", 2, 3),
        record(2, &[0, 1], 2, ROOT, "C", 3, 3),
    ];
    calls.call(
        8,
        "a block whose records follow on what is not held",
        take(&none, &second),
    );
    calls.call(
        8,
        "a record that has seen one that is not held",
        take(&log_of(&open[..1]), &block_of(&open[2..])),
    );
    calls.call(
        9,
        "seen that is covered, but not closed",
        take(&log_of(&open[..2]), &block_of(&open[2..])),
    );
    calls.call(
        9,
        "the same, with the records that it has seen in the same block",
        take(&none, &block_of(&open)),
    );
    let mut other = good[1];
    other[79] = 0;
    calls.call(
        10,
        "a held record with another byte in its mark",
        take(&held, &block_of(&[other])),
    );
    calls.call(
        10,
        "a record twice in one block, the second time with another byte",
        take(&none, &block_of(&[good[0], good[1], other])),
    );
}

fn two_faults(calls: &mut Calls) {
    let none = vec![0; LOG];
    let block = block_of(&paper());
    let log = log_of(&paper());
    let unsound = changed(&log, &[(31, 0)]);
    calls.call(1, "a short log and own unit 8: 1", |list| {
        list.take(2, lent(&none[1..]), 7, 8, &block)
    });
    calls.call(21, "own unit 8 and an unsound log: 21", |list| {
        list.take(2, lent(&unsound), 7, 8, &block)
    });
    calls.call(
        19,
        "an unsound log and a short block: 19",
        take(&unsound, &block[1..]),
    );
    calls.call(
        3,
        "other letters and wrong sums: 3",
        take(&none, &changed(&block, &[(0, 0)])),
    );
    calls.call(
        4,
        "a wrong sum and a count of 7: 4",
        take(&none, &changed(&block, &[(9, 7)])),
    );
    calls.call(
        5,
        "a count of 7 and another archive: 5",
        take(&none, &sealed(&block, &[(9, 7), (4, 8)])),
    );
    calls.call(
        6,
        "another archive and a malformed record: 6",
        take(&none, &sealed(&block, &[(4, 8), (59, 0)])),
    );
    calls.call(
        7,
        "a held record that came malformed: 7, not 10",
        take(&log, &sealed(&block, &[(59, 0)])),
    );
    let [open, other] = [
        record(2, &[0, 1], 2, ROOT, "C", 3, 3),
        record(2, &[0, 1, 1], 2, ROOT, "D", 3, 3),
    ];
    calls.call(
        8,
        "not the next number, and seen not closed: 8",
        take(&log, &block_of(&[other])),
    );
    calls.call(
        9,
        "seen not closed, and a malformed record behind it: 9",
        take(&log, &block_of(&[open, [0xff; 80]])),
    );
}

fn taken(calls: &mut Calls) {
    let good = blocks_of_six(2);
    let (first, second) = (block_of(&good[..6]), block_of(&good[6..]));
    let own = |slot: usize, block: Vec<u8>| {
        move |list: &mut List| list.take(slot, make_vectors::list::Lent::Own, 7, slot as u8, &block)
    };
    let (zero, one) = (
        record(0, &[], 2, ROOT, "A", 1, 3),
        record(1, &[], 2, ROOT, "A", 2, 3),
    );
    calls.call(
        0,
        "a block without records changes nothing",
        own(2, block_of(&[])),
    );
    calls.call(0, "six new records", own(2, first.clone()));
    calls.call(
        0,
        "the same block again changes nothing",
        own(2, first.clone()),
    );
    calls.call(
        0,
        "three held records and three new ones, of the taker's own unit too",
        own(2, block_of(&good[3..9])),
    );
    calls.call(
        0,
        "place and vector are not judged",
        own(2, sealed(&second, &[(10, 9), (12, 77)])),
    );
    calls.call(
        0,
        "a record twice in one block, equal both times",
        own(3, block_of(&[zero, zero])),
    );
    calls.call(
        0,
        "records in falling rank within a block",
        own(4, block_of(&[one, zero])),
    );
    calls.call(0, "1.1 alone, under the label A", own(5, block_of(&[one])));
    calls.call(
        0,
        "0.1 of the same label comes later and ranks before it",
        own(5, block_of(&[zero])),
    );
    for slot in [2, 3, 4, 5] {
        calls.call(0, "what is shown then", |list| {
            list.show(slot, make_vectors::list::Lent::Own)
        });
    }
}
