//! Acts accepted and refused.

use crate::blocks::unsound_logs;
use crate::damaged::{MALFORMED, MALFORMED_MOVE};
use crate::kit::{Calls, Written, block_of, lent, log_of};
use make_vectors::chain::blocks_of_six;
use make_vectors::examples::{ROOT, moved, record};
use make_vectors::list::{Lent, List};
use plain::LOG;

pub fn list() -> Written {
    let mut calls = Calls::new("acts: each operation, and each refusal of a wish");
    lengths(&mut calls);
    malformed(&mut calls);
    refused(&mut calls);
    strokes(&mut calls);
    cases(&mut calls);
    moves(&mut calls);
    crossing(&mut calls);
    accepted(&mut calls);
    calls.written("acts", "wishes given to an act")
}

/// A wish of a unit to move an object into a folder under a label.
fn move_wish(unit: u8, object: (u8, u16), folder: (u8, u16), label: &str) -> [u8; 80] {
    let mut wish = moved(unit, &[], object, folder, label, 3);
    wish[2..20].fill(0);
    wish
}

/// A wish of a unit: operation, folder or object, label, mark.
fn wish(unit: u8, operation: u8, named: (u8, u16), label: &str, mark: u8) -> [u8; 80] {
    let mut wish = record(unit, &[], operation, named, label, mark, 3);
    wish[2..20].fill(0);
    wish
}

fn act(log: &[u8], wish: &[u8]) -> impl FnOnce(&mut List) -> u8 {
    move |list| list.act(0, lent(log), 7, 0, wish)
}

fn lengths(calls: &mut Calls) {
    let none = vec![0; LOG];
    let make = wish(0, 1, ROOT, "A", 0);
    calls.call(1, "a log one byte short", act(&none[1..], &make));
    calls.call(1, "a wish of 79 bytes", act(&none, &make[..79]));
    calls.call(
        1,
        "a wish of 81 bytes",
        act(&none, &[&make[..], &[0]].concat()),
    );
    calls.call(1, "no wish and own unit 8: 1", |list| {
        list.act(0, lent(&none), 7, 8, &[])
    });
    calls.call(21, "own unit 8", |list| {
        list.act(0, lent(&none), 7, 8, &make)
    });
    let (what, log) = &unsound_logs()[0];
    calls.call(19, &format!("a lent log with {what}"), act(log, &make));
    calls.call(
        19,
        "an unsound log and a malformed wish: 19",
        act(log, &[0; 80]),
    );
}

/// Six records: the folder 0.1 with the trace 0.2, renamed; 1.1, a remove of 0.1,
/// stands aside and was settled by 2.1.
fn held() -> Vec<u8> {
    log_of(&blocks_of_six(1))
}

fn malformed(calls: &mut Calls) {
    let log = held();
    let make = wish(0, 1, ROOT, "A", 0);
    let with = |at: usize, byte: u8| {
        let mut wish = make;
        wish[at] = byte;
        wish
    };
    calls.call(7, "a wish of another unit", act(&log, &with(0, 1)));
    calls.call(7, "a wish with its number", act(&log, &with(2, 5)));
    calls.call(7, "a wish with what it has seen", act(&log, &with(4, 4)));
    calls.call(7, "a wish of zeros", act(&log, &[0; 80]));
    calls.call(
        7,
        "an object beyond the vector: 7, not 12",
        act(&log, &wish(0, 4, (0, 5), "", 0)),
    );
    calls.call(
        7,
        "a folder beyond the vector: 7, not 13",
        act(&log, &wish(0, 1, (2, 2), "A", 0)),
    );
    calls.call(
        7,
        "a settle beyond the vector: 7, not 18",
        act(&log, &wish(0, 6, (3, 1), "", 0)),
    );
    // The wishes of the six operations, each malformed in one way.
    let wishes = [
        wish(0, 1, ROOT, "Bench 1", 0),
        wish(0, 2, (0, 1), "Gain", 1),
        wish(0, 3, (0, 2), "", 2),
        wish(0, 5, (0, 2), "Gain \"1\"", 0),
        wish(0, 4, (0, 1), "", 0),
        wish(0, 6, (1, 1), "", 0),
    ];
    for (name, shows, operation, changes) in MALFORMED {
        if changes.iter().any(|(at, _)| *at < 20 && *at != 1) || name.ends_with("itself") {
            continue;
        }
        let mut wish = wishes[*operation];
        changes.iter().for_each(|(at, byte)| wish[*at] = *byte);
        calls.call(7, &format!("malformed: {shows}"), act(&log, &wish));
    }
}

fn refused(calls: &mut Calls) {
    let log = held();
    let mut call = |number, shows, wish: [u8; 80]| calls.call(number, shows, act(&log, &wish));
    call(
        12,
        "a store into a record that is no make",
        wish(0, 3, (0, 3), "", 1),
    );
    call(
        12,
        "a remove of a record that is no make",
        wish(0, 4, (1, 1), "", 0),
    );
    call(
        12,
        "a rename of a record that is no make",
        wish(0, 5, (0, 4), "A", 0),
    );
    call(
        13,
        "a make in a record that is no make",
        wish(0, 2, (0, 3), "A", 1),
    );
    call(14, "a make in a trace", wish(0, 1, (0, 2), "A", 0));
    call(14, "a store into a folder", wish(0, 3, (0, 1), "", 1));
    call(
        15,
        "a make under a label that is held",
        wish(0, 2, ROOT, "Bench 0", 1),
    );
    call(
        16,
        "a remove of a folder with an entry",
        wish(0, 4, (0, 1), "", 0),
    );
    call(
        18,
        "a settle of a make that acts",
        wish(0, 6, (0, 1), "", 0),
    );
    call(
        18,
        "a settle of a settle that fitted",
        wish(0, 6, (2, 1), "", 0),
    );
}

/// Labels with strokes: refused in a wish, taken in a record.
fn strokes(calls: &mut Calls) {
    let log = held();
    let most = "/".repeat(32);
    let last = format!("{}/", "A".repeat(31));
    let mut call = |number, shows, wish: [u8; 80]| calls.call(number, shows, act(&log, &wish));
    call(24, "a stroke first in a label", wish(0, 1, ROOT, "/A", 0));
    call(24, "a stroke in the middle", wish(0, 2, (0, 1), "A/B", 1));
    call(24, "a stroke last", wish(0, 5, (0, 2), "A/", 0));
    call(24, "a stroke alone", wish(0, 2, ROOT, "/", 1));
    call(
        24,
        "a stroke as the 32nd byte",
        wish(0, 1, (0, 1), &last, 0),
    );
    call(24, "32 strokes", wish(0, 5, (0, 1), &most, 0));
    call(
        24,
        "a stroke and a folder that is a trace: 24, not 14",
        wish(0, 1, (0, 2), "A/B", 0),
    );
    call(
        24,
        "a stroke and an object that is no make: 24, not 12",
        wish(0, 5, (0, 4), "A/B", 0),
    );
    let bad = |at: usize, byte: u8| {
        let mut wish = wish(0, 1, ROOT, "A/B", 0);
        wish[at] = byte;
        wish
    };
    call(7, "a stroke and month 13: 7, not 24", bad(30, 13));
    call(7, "a stroke and the byte 7F behind it: 7", bad(34, 0x7f));
    call(7, "a stroke and a space first: 7", bad(32, 0x20));
    call(7, "a stroke and another unit: 7", bad(0, 1));
    call(7, "a stroke and a number: 7", bad(2, 5));
    call(
        7,
        "a stroke and a byte of a mark that is not used: 7",
        bad(64, 1),
    );
    call(
        7,
        "a stroke in the label field of a store, which has no label: 7",
        wish(0, 3, (0, 2), "/", 1),
    );
    call(
        0,
        "a full stop, a zero and a backslash",
        wish(0, 1, ROOT, ".0\\", 0),
    );
    call(0, "a mark of strokes", wish(0, 2, ROOT, "A", b'/'));
    let made = record(5, &[], 2, ROOT, "A/B", 1, 3);
    calls.call(0, "a record whose label has a stroke is taken", |list| {
        list.take(5, Lent::Own, 7, 5, &block_of(&[made]))
    });
    calls.call(0, "and shown", |list| list.show(5, Lent::Own));
    calls.call(
        24,
        "its entry is not renamed to a label with another stroke",
        |list| list.act(5, Lent::Own, 7, 5, &wish(5, 5, (5, 1), "A//B", 0)),
    );
    calls.call(0, "its entry is renamed", |list| {
        list.act(5, Lent::Own, 7, 5, &wish(5, 5, (5, 1), "A B", 0))
    });
}

/// Labels that differ in capitals and small letters alone. Unit 4: the folder 4.1
/// Bench, the traces 4.2 Gain and 4.3 [A] in it.
fn cases(calls: &mut Calls) {
    let log = held();
    let mut call = |number, shows, wish: [u8; 80]| calls.call(number, shows, act(&log, &wish));
    call(
        0,
        "a rename to the label that the entry has, in the same bytes",
        wish(0, 5, (0, 1), "Bench 0", 0),
    );
    call(0, "in other cases", wish(0, 5, (0, 1), "bENCH 0", 0));
    call(
        15,
        "a make of it in small letters",
        wish(0, 1, ROOT, "bench 0", 0),
    );
    call(
        15,
        "a make of it in capitals",
        wish(0, 2, ROOT, "BENCH 0", 1),
    );
    call(0, "in another folder", wish(0, 2, (0, 1), "BENCH 0", 1));
    call(0, "with a space more", wish(0, 2, ROOT, "BENCH  0", 1));

    let mut call = |number, shows: &str, wish: [u8; 80]| {
        calls.call(number, shows, |list| list.act(4, Lent::Own, 7, 4, &wish))
    };
    call(
        0,
        "4.1 makes the folder Bench",
        wish(4, 1, ROOT, "Bench", 0),
    );
    call(
        0,
        "4.2 makes the trace Gain in it",
        wish(4, 2, (4, 1), "Gain", 1),
    );
    call(0, "4.3 makes the trace [A]", wish(4, 2, (4, 1), "[A]", 2));
    call(15, "a trace GAIN in Bench", wish(4, 2, (4, 1), "GAIN", 3));
    call(15, "a rename of [A] to gain", wish(4, 5, (4, 3), "gain", 0));
    call(15, "a trace [a]", wish(4, 2, (4, 1), "[a]", 3));
    call(
        0,
        "4.4 makes {A}: brackets are no capitals",
        wish(4, 2, (4, 1), "{A}", 3),
    );
    call(0, "4.5 makes @", wish(4, 2, (4, 1), "@", 4));
    call(0, "4.6 makes the backquote", wish(4, 2, (4, 1), "`", 5));
    call(0, "4.7 renames Gain to gAIN", wish(4, 5, (4, 2), "gAIN", 0));
    call(
        0,
        "4.8 renames it to gAIN again",
        wish(4, 5, (4, 2), "gAIN", 0),
    );
    call(
        15,
        "it still has the label Gain",
        wish(4, 1, (4, 1), "Gain", 0),
    );
    call(0, "4.9 renames it to Loss", wish(4, 5, (4, 2), "Loss", 0));
    call(
        0,
        "4.10 makes GAIN: the label is free",
        wish(4, 1, (4, 1), "GAIN", 0),
    );
    calls.call(0, "what is shown then, labels as written", |list| {
        list.show(4, Lent::Own)
    });
}

/// Moves. Unit 2: the folders 2.1 A, 2.2 B in it and 2.3 C, the traces 2.4 T in B
/// and 2.5 U in C.
fn moves(calls: &mut Calls) {
    let log = held();
    for (name, shows, changes) in MALFORMED_MOVE {
        if name.ends_with("itself") {
            continue;
        }
        let mut wish = move_wish(0, (0, 2), (0, 1), "Gain");
        // The changes are those of a move of 0.2 that has seen 0.3.
        changes.iter().for_each(|(at, byte)| wish[*at] = *byte);
        if *name == "object-beyond" {
            wish[22] = 9;
        }
        calls.call(7, &format!("malformed: {shows}"), act(&log, &wish));
    }
    let mut call = |number, shows: &str, wish: [u8; 80]| {
        calls.call(number, shows, |list| list.act(2, Lent::Own, 7, 2, &wish))
    };
    call(0, "2.1 makes the folder A", wish(2, 1, ROOT, "A", 0));
    call(
        0,
        "2.2 makes the folder B in it",
        wish(2, 1, (2, 1), "B", 0),
    );
    call(0, "2.3 makes the folder C", wish(2, 1, ROOT, "C", 0));
    call(0, "2.4 makes the trace T in B", wish(2, 2, (2, 2), "T", 1));
    call(0, "2.5 makes the trace U in C", wish(2, 2, (2, 3), "U", 2));
    call(25, "A into itself", move_wish(2, (2, 1), (2, 1), "A"));
    call(
        25,
        "A into B, which lies in it",
        move_wish(2, (2, 1), (2, 2), "A"),
    );
    call(
        25,
        "A into B under a label that is held there: 25, not 15",
        move_wish(2, (2, 1), (2, 2), "T"),
    );
    call(
        24,
        "A into itself under a label with a stroke: 24, not 25",
        move_wish(2, (2, 1), (2, 1), "A/B"),
    );
    call(
        14,
        "T into itself: 14, not 25",
        move_wish(2, (2, 4), (2, 4), "T"),
    );
    call(14, "T into U", move_wish(2, (2, 4), (2, 5), "T"));
    call(
        14,
        "A into T, which lies below it: 14, not 25",
        move_wish(2, (2, 1), (2, 4), "A"),
    );
    call(15, "T into C as u", move_wish(2, (2, 4), (2, 3), "u"));
    call(15, "B into the root as c", move_wish(2, (2, 2), ROOT, "c"));
    call(24, "T into C as T/1", move_wish(2, (2, 4), (2, 3), "T/1"));
    call(
        0,
        "2.6 moves T to where it is, in the same bytes",
        move_wish(2, (2, 4), (2, 2), "T"),
    );
    call(
        0,
        "2.7 moves T to where it is, as t",
        move_wish(2, (2, 4), (2, 2), "t"),
    );
    call(
        0,
        "2.8 moves T into C as V",
        move_wish(2, (2, 4), (2, 3), "V"),
    );
    call(15, "C has a V now", wish(2, 2, (2, 3), "v", 1));
    call(0, "2.9 makes a T in B again", wish(2, 2, (2, 2), "T", 3));
    call(
        0,
        "2.10 moves the folder C into B",
        move_wish(2, (2, 3), (2, 2), "C"),
    );
    call(
        25,
        "A into C, which lies in B, which lies in A",
        move_wish(2, (2, 1), (2, 3), "A"),
    );
    call(
        0,
        "2.11 moves B to the root",
        move_wish(2, (2, 2), ROOT, "B"),
    );
    call(0, "2.12 moves A into C", move_wish(2, (2, 1), (2, 3), "A"));
    call(25, "B into A now", move_wish(2, (2, 2), (2, 1), "B"));
    call(16, "C has entries", wish(2, 4, (2, 3), "", 0));
    call(
        0,
        "2.13 removes A, which is empty",
        wish(2, 4, (2, 1), "", 0),
    );
    call(
        12,
        "A is not there any more",
        move_wish(2, (2, 1), ROOT, "A"),
    );
    call(
        12,
        "A into itself, where it is not any more: 12",
        move_wish(2, (2, 1), (2, 1), "A"),
    );
    call(
        13,
        "into A, which is not there",
        move_wish(2, (2, 4), (2, 1), "T"),
    );
    call(
        12,
        "a record that is no make",
        move_wish(2, (2, 6), ROOT, "A"),
    );
    call(
        13,
        "into a record that is no make",
        move_wish(2, (2, 4), (2, 6), "T"),
    );
    calls.call(0, "what is shown then", |list| list.show(2, Lent::Own));
}

/// Units 6 and 7 move two folders into each other.
fn crossing(calls: &mut Calls) {
    let act = |unit: u8, wish: [u8; 80]| {
        move |list: &mut List| list.act(unit.into(), Lent::Own, 7, unit, &wish)
    };
    let take = |from: u8, to: u8| {
        move |list: &mut List| {
            let asked = workload::vector_of(&list.logs[usize::from(to)]);
            list.hand_out(from.into(), Lent::Own, 7, from, &asked, (plain::BLOCK, 1));
            let block = list.given[list.given.len() - 1].clone();
            list.take(to.into(), Lent::Own, 7, to, &block)
        }
    };
    calls.call(
        0,
        "6.1 makes the folder A",
        act(6, wish(6, 1, ROOT, "A", 0)),
    );
    calls.call(
        0,
        "6.2 makes the folder B",
        act(6, wish(6, 1, ROOT, "B", 0)),
    );
    calls.call(0, "unit 7 takes both", take(6, 7));
    calls.call(
        0,
        "6.3 moves A into B",
        act(6, move_wish(6, (6, 1), (6, 2), "A")),
    );
    calls.call(
        0,
        "7.1 moves B into A",
        act(7, move_wish(7, (6, 2), (6, 1), "B")),
    );
    calls.call(0, "unit 6 takes 7.1", take(7, 6));
    calls.call(0, "unit 7 takes 6.3", take(6, 7));
    calls.call(0, "at unit 6 7.1 stands aside (25)", |list| {
        list.show(6, Lent::Own)
    });
    calls.call(0, "at unit 7 too", |list| list.show(7, Lent::Own));
    calls.call(
        0,
        "7.2 moves A to the root",
        act(7, move_wish(7, (6, 1), ROOT, "A")),
    );
    calls.call(
        0,
        "7.3 moves B into A",
        act(7, move_wish(7, (6, 2), (6, 1), "B")),
    );
    calls.call(0, "7.4 settles 7.1", act(7, wish(7, 6, (7, 1), "", 0)));
    calls.call(0, "what unit 7 shows then", |list| list.show(7, Lent::Own));
}

fn accepted(calls: &mut Calls) {
    let mut call = |number, shows: &str, wish: [u8; 80]| {
        calls.call(number, shows, |list| list.act(0, Lent::Own, 7, 0, &wish))
    };
    call(0, "0.1 makes a folder", wish(0, 1, ROOT, "F", 0));
    call(0, "0.2 makes a trace in it, with a label of 32 bytes", {
        wish(0, 2, (0, 1), "ABCDEFGHIJKLMNOPQRSTUVWXYZ012345", 0x41)
    });
    call(0, "0.3 stores into the trace", wish(0, 3, (0, 2), "", 0xff));
    call(0, "0.4 renames the folder", wish(0, 5, (0, 1), "G", 0));
    call(15, "the new label is held", wish(0, 1, ROOT, "G", 0));
    call(
        0,
        "0.5 makes a folder under the old label",
        wish(0, 1, ROOT, "F", 0),
    );
    call(0, "0.6 removes the trace", wish(0, 4, (0, 2), "", 0));
    call(
        12,
        "the trace is not there any more",
        wish(0, 3, (0, 2), "", 1),
    );
    call(
        0,
        "0.7 removes the folder, which is empty",
        wish(0, 4, (0, 1), "", 0),
    );
    call(
        13,
        "the folder is not there any more",
        wish(0, 2, (0, 1), "A", 1),
    );
    call(18, "nothing stands aside", wish(0, 6, (0, 7), "", 0));
    calls.call(0, "what is shown then", |list| list.show(0, Lent::Own));
}
