//! Folding, call by call: what is heard, what is folded, and the other calls over
//! a base.

use crate::kit::{Calls, Written, block_of};
use make_vectors::examples::{ROOT, record};
use make_vectors::list::{Lent, List};
use make_vectors::lists;
use plain::{BLOCK, FILE, LOG, SAB2_FILE};

pub fn list() -> Written {
    let mut calls = Calls::new("folding, and the other calls over a base");
    runs(&mut calls);
    over_a_base(&mut calls);
    takes(&mut calls);
    lists(&mut calls);
    starting(&mut calls);
    calls.written("folding", "folding, and the other calls over a base")
}

fn act(
    unit: u8,
    operation: u8,
    named: (u8, u16),
    label: &'static str,
) -> impl FnOnce(&mut List) -> u8 {
    move |list| {
        let mark = if matches!(operation, 2 | 3) { 7 } else { 0 };
        let mut wish = record(unit, &[], operation, named, label, mark, 3);
        wish[2..20].fill(0);
        list.act(unit.into(), Lent::Own, 7, unit, &wish)
    }
}

/// One block, by the true vector of the unit that asks.
fn hand(from: usize, to: usize) -> impl FnOnce(&mut List) -> u8 {
    move |list| {
        let asked = list.vector(to);
        list.hand_out(from, Lent::Own, 7, from as u8, &asked, (BLOCK, 1))
    }
}

fn asked(from: usize, asked: [u16; 8]) -> impl FnOnce(&mut List) -> u8 {
    move |list| list.hand_out(from, Lent::Own, 7, from as u8, &asked, (BLOCK, 1))
}

/// The last block given.
fn take(to: usize) -> impl FnOnce(&mut List) -> u8 {
    move |list| {
        let block = list.given.last().expect("a block was given").clone();
        list.take(to, Lent::Own, 7, to as u8, &block)
    }
}

fn pass(calls: &mut Calls, from: usize, to: usize) {
    calls.call(0, &format!("unit {from} hands out to unit {to}"), hand(from, to));
    calls.call(0, &format!("unit {to} takes it"), take(to));
}

fn take_of(to: usize, records: &[[u8; 80]]) -> impl FnOnce(&mut List) -> u8 {
    let block = block_of(records);
    move |list| list.take(to, Lent::Own, 7, to as u8, &block)
}

fn fold(unit: usize, units: u8) -> impl FnOnce(&mut List) -> u8 {
    move |list| list.fold(unit, 7, unit as u8, units)
}

fn show(unit: usize) -> impl FnOnce(&mut List) -> u8 {
    move |list| list.show(unit, Lent::Own)
}

/// The records 0.1, 2.1, 1.1 (seen 2.1), 2.2 (seen 0.1, 2.1), 1.2 (seen 0.1, 1.1,
/// 2.1), all at unit 0.
fn runs(calls: &mut Calls) {
    calls.call(0, "fold: an empty log, all listed", fold(0, 255));
    calls.call(0, "0.1 makes a folder", act(0, 1, ROOT, "a"));
    calls.call(0, "2.1 makes a trace", act(2, 2, ROOT, "b"));
    pass(calls, 2, 1);
    calls.call(0, "1.1, which has seen 2.1, makes a trace", act(1, 2, ROOT, "c"));
    pass(calls, 0, 2);
    calls.call(0, "2.2, which has seen 0.1 and 2.1, stores to 2.1", act(2, 3, (2, 1), ""));
    pass(calls, 0, 1);
    calls.call(0, "1.2, which has seen 0.1, 1.1 and 2.1, stores to 2.1", act(1, 3, (2, 1), ""));
}

fn over_a_base(calls: &mut Calls) {
    pass(calls, 1, 0);
    pass(calls, 2, 0);
    calls.call(0, "what unit 0 shows: 1.2 stands aside", show(0));
    calls.call(0, "fold by all eight: five units are silent, nothing folds", fold(0, 255));
    calls.call(0, "fold by 0, 1, 2, 3: unit 3 is silent, nothing folds", fold(0, 15));
    calls.call(26, "fold by 1, 2: without the own unit", fold(0, 6));
    calls.call(26, "fold by 0, 1: without unit 2, which has records", fold(0, 3));
    calls.call(26, "fold by no unit", fold(0, 0));
    calls.call(21, "fold: own unit 8", |list| list.fold(0, 7, 8, 7));
    calls.call(
        0,
        "fold by 0, 1, 2: 0.1 and 2.1; unit 2 has not heard 1.1, which has not seen 0.1",
        fold(0, 7),
    );
    calls.call(0, "the same again: nothing more folds", fold(0, 7));
    calls.call(0, "unit 0 shows what it showed", show(0));
    calls.call(26, "fold by 0, 1: of unit 2 there are folded records too", fold(0, 3));
    calls.call(0, "fold by 0, 1, 2, 3: nothing folds, and the list is kept", fold(0, 15));
    calls.call(29, "an SAB1 file cannot be written", |list| {
        list.write(0, Lent::Own, 7, 0, FILE, 9)
    });
    files(calls);
    calls.call(27, "hand out to a vector of zeros: folded records are lacking", asked(0, [0; 8]));
    calls.call(
        27,
        "hand out to a vector that lacks 2.1 alone, and counts others above what is held",
        asked(0, [9, 9, 0, 9, 9, 9, 9, 9]),
    );
    calls.call(
        0,
        "hand out to the base vector: what is not folded; the header counts what is",
        asked(0, [1, 0, 1, 0, 0, 0, 0, 0]),
    );
    calls.call(0, "unit 1 takes that block", take(1));
    calls.call(0, "0.2: numbers go on from the base; it renames 0.1, which is folded", |list| {
        act(0, 5, (0, 1), "z")(list)
    });
    calls.call(15, "a label that a folded entry has, in another case", act(0, 1, ROOT, "B"));
    calls.call(0, "the label that the rename made free", act(0, 1, ROOT, "a"));
    calls.call(16, "a folder in which something lies cannot be removed", |list| {
        assert_eq!(act(0, 2, (0, 1), "inside")(list), 0);
        act(0, 4, (0, 1), "")(list)
    });
    calls.call(0, "a settle of 1.2, which is not folded", act(0, 6, (1, 2), ""));
    calls.call(18, "a settle of 0.1, which is folded and stands not aside", act(0, 6, (0, 1), ""));
    calls.call(0, "what unit 0 shows now", show(0));
}

/// The SAB2 file of what is folded and what is left.
fn files(calls: &mut Calls) {
    let write = |unit: u8, length: usize| {
        move |list: &mut List| list.write_sab2(0, Lent::Own, 7, unit, length, 9)
    };
    for length in [0, FILE, SAB2_FILE - 1, SAB2_FILE + 1] {
        let shows = format!("write SAB2: {length} bytes to write, and own unit 8: 1");
        calls.call(1, &shows, write(8, length));
    }
    calls.call(21, "write SAB2: own unit 8", write(8, SAB2_FILE));
    calls.call(0, "write SAB2: list, base and what is left; zeros behind it", write(0, SAB2_FILE));
    calls.call(0, "write SAB2: by unit 6, which is not listed", write(6, SAB2_FILE));
    calls.call(19, "write SAB2: a log that is not sound", |list| {
        list.write_sab2(0, Lent::Outside(&[1; LOG]), 7, 0, SAB2_FILE, 9)
    });
    calls.call(0, "write SAB2: an empty log and an empty base", |list| {
        list.write_sab2(0, Lent::Outside(&[0; LOG]), 7, 5, SAB2_FILE, 9)
    });
    calls.call(0, "the listing of that file", |list| {
        list.readout2(0, 7, 0);
        0
    });
    calls.call(29, "its way back", |list| list.back(0, 7, 0));
    calls.call(0, "the way back of unit 3, which holds nothing", |list| list.back(3, 7, 3));
}

fn takes(calls: &mut Calls) {
    let base = [1, 0, 1];
    let of = |unit: u8, seen: &[u16], label: &str| record(unit, seen, 1, ROOT, label, 0, 3);
    calls.call(
        0,
        "take: 0.1 with other bytes: it is folded, and not compared",
        take_of(0, &[of(0, &[], "other")]),
    );
    calls.call(
        7,
        "take: 0.1 malformed: 7 comes before it is passed over",
        take_of(0, &[of(0, &[], " x")]),
    );
    calls.call(
        10,
        "take: 1.1 with other bytes: it is not folded, and it need not cover the base",
        take_of(0, &[of(1, &[0, 0, 1], "other")]),
    );
    calls.call(
        27,
        "take: 3.1, which has seen nothing: below the base",
        take_of(0, &[of(3, &[], "d")]),
    );
    calls.call(
        27,
        "take: 3.1, which has not seen 2.1",
        take_of(0, &[of(3, &[1], "d")]),
    );
    calls.call(
        8,
        "take: 3.2 without 3.1, below the base: 8 comes before 27",
        take_of(0, &[of(3, &[0, 0, 0, 1], "d")]),
    );
    calls.call(
        9,
        "take: 3.1, which has seen 0.2 and what is folded, but not all that 0.2 saw",
        take_of(0, &[of(3, &[2, 0, 1], "d")]),
    );
    calls.call(
        27,
        "take: the same without 2.1, which is folded: 27 comes before 9",
        take_of(0, &[of(3, &[2], "d")]),
    );
    calls.call(
        26,
        "take: 4.1, of a unit that is not listed: 26 comes before 27",
        take_of(0, &[of(4, &[], "d")]),
    );
    calls.call(26, "take: 4.1 with 0.1, folded, before it", {
        let block = block_of(&[of(0, &[], "other"), of(4, &base, "d")]);
        move |list| list.take(0, Lent::Own, 7, 0, &block)
    });
    calls.call(
        0,
        "take: 3.1, which has seen what is folded",
        take_of(0, &[of(3, &base, "d")]),
    );
    calls.call(0, "try: a row is stopped by 27 behind a block that is taken", {
        let row = [block_of(&[of(3, &[1, 0, 1, 1], "e")]), block_of(&[of(1, &[0, 2, 0], "f")])];
        move |list: &mut List| list.try_row(0, Lent::Own, 7, 0, &row.concat())
    });
    calls.call(26, "act: a unit that is not listed", |list| {
        let mut wish = record(6, &[], 1, ROOT, "x", 0, 3);
        wish[2..20].fill(0);
        list.act(0, Lent::Own, 7, 6, &wish)
    });
    calls.call(26, "act: the same with a bad wish: 26 comes before 7", |list| {
        list.act(0, Lent::Own, 7, 6, &[0; 80])
    });
}

/// Passes all that is lacking, block by block.
fn pass_all(calls: &mut Calls, from: usize, to: usize) {
    calls.call(0, &format!("unit {to} takes all it lacks of unit {from}"), |list| {
        lists::pass(list, from, to);
        0
    });
}

/// Every unit hears all and tells it; then all folds.
fn lists(calls: &mut Calls) {
    calls.call(27, "unit 3 lacks what unit 0 has folded", hand(0, 3));
    pass_all(calls, 1, 3);
    pass_all(calls, 0, 3);
    calls.call(0, "3.2, which has seen all", act(3, 1, ROOT, "told"));
    pass_all(calls, 3, 2);
    calls.call(0, "2.3, which has seen all", act(2, 1, ROOT, "too"));
    pass_all(calls, 2, 0);
    calls.call(0, "fold by 0, 1, 2, 3: what unit 1 has told of by 1.2", fold(0, 15));
    pass_all(calls, 2, 1);
    calls.call(0, "1.3, which has seen all", act(1, 3, (2, 1), ""));
    pass_all(calls, 1, 0);
    calls.call(0, "what unit 0 shows", show(0));
    calls.call(0, "fold: up to 3.2, which unit 2 and unit 1 have heard; 2.3 unit 3 has not", fold(0, 15));
    calls.call(0, "unit 0 shows what it showed", show(0));
    calls.call(18, "a settle of a folded settle, which stands not aside", act(0, 6, (0, 5), ""));
    calls.call(0, "a second settle of 1.2, an aside that is folded and settled", act(0, 6, (1, 2), ""));
    calls.call(0, "a remove of 1.1, which is folded", act(0, 4, (1, 1), ""));
    calls.call(0, "all eight listed again: nothing folds", fold(0, 255));
    calls.call(0, "what unit 0 shows", show(0));
}

fn starting(calls: &mut Calls) {
    calls.call(0, "start: the base is empty again, and all are listed", |list| {
        list.start(0, Lent::Own, 7, 0)
    });
    calls.call(0, "a file can be written again", |list| {
        list.write(0, Lent::Own, 7, 0, FILE, 9)
    });
}
