//! Folders listed and labels looked up, after each kind of change: any folder
//! asked, any label bytes.

use crate::kit::{Calls, Written};
use make_vectors::examples::{ROOT, moved, record};
use make_vectors::list::{Lent, List};
use plain::BLOCK;

type Id = (u8, u16);
/// A folder asked for: any two numbers.
type Asked = (u32, u32);
/// The root, asked for.
const TOP: Asked = (0, 0);

pub fn list() -> Written {
    let mut calls = Calls::new("folders listed and labels looked up by the index of a log");
    empty(&mut calls);
    order(&mut calls);
    odd_folders(&mut calls);
    odd_labels(&mut calls);
    changes(&mut calls);
    meeting(&mut calls);
    cases(&mut calls);
    moves(&mut calls);
    restart(&mut calls);
    calls.written("finding", "folders listed and labels looked up")
}

const LONG: &str = "12345678901234567890123456789012";

fn act(unit: u8, operation: u8, named: Id, label: &str) -> impl FnOnce(&mut List) -> u8 {
    let mut wish = record(unit, &[], operation, named, label, 1, 3);
    wish[2..20].fill(0);
    if !matches!(operation, 2 | 3) {
        wish[64..].fill(0);
    }
    move |list| list.act(unit.into(), Lent::Own, 7, unit, &wish)
}

fn take(from: u8, to: u8) -> impl FnOnce(&mut List) -> u8 {
    move |list| {
        let asked = workload::vector_of(&list.logs[usize::from(to)]);
        list.hand_out(from.into(), Lent::Own, 7, from, &asked, (BLOCK, 1));
        let block = list.given[list.given.len() - 1].clone();
        list.take(to.into(), Lent::Own, 7, to, &block)
    }
}

/// What a folder of a slot lists.
fn lists(calls: &mut Calls, slot: usize, folder: Asked, answer: &str, shows: &str) {
    calls.ask(answer, &format!("list: {shows}"), |list| {
        list.list(slot, folder)
    });
}

/// What is found under a label in a folder of a slot.
fn finds(calls: &mut Calls, slot: usize, folder: Asked, label: &[u8], answer: &str, shows: &str) {
    calls.ask(answer, &format!("find: {shows}"), |list| {
        list.find(slot, folder, label)
    });
}

fn empty(calls: &mut Calls) {
    lists(calls, 0, TOP, "-", "the root of an empty log");
    finds(calls, 0, TOP, b"Bench", "-", "a label in an empty log");
    finds(calls, 0, TOP, b"", "-", "no label in an empty log");
    finds(calls, 0, TOP, &[0; 32], "-", "32 zeros in an empty log");
}

/// Unit 0: 0.1 the folder b; 0.2 to 0.7 traces in the root; 0.8 to 0.10 in 0.1.
fn order(calls: &mut Calls) {
    let make = |calls: &mut Calls, shows: &str, operation, folder, label: &str| {
        calls.call(0, shows, act(0, operation, folder, label));
    };
    make(calls, "0.1 makes the folder b", 1, ROOT, "b");
    for label in ["~", "ab", "B_", "a", LONG, "a b"] {
        make(
            calls,
            &format!("the trace {label} in the root"),
            2,
            ROOT,
            label,
        );
    }
    for label in ["ab", "b", "!"] {
        make(
            calls,
            &format!("the trace {label} in 0.1"),
            2,
            (0, 1),
            label,
        );
    }
    lists(
        calls,
        0,
        TOP,
        "0.6,0.5,0.7,0.3,0.1,0.4,0.2",
        "digits, letters, ~; a before a b before ab, b before B_; a folder among traces",
    );
    lists(
        calls,
        0,
        (0, 1),
        "0.10,0.8,0.9",
        "another folder, the same labels",
    );
    finds(
        calls,
        0,
        TOP,
        b"ab",
        "0.3",
        "a label that two folders have: in the root",
    );
    finds(calls, 0, (0, 1), b"ab", "0.8", "in the other");
    finds(
        calls,
        0,
        TOP,
        LONG.as_bytes(),
        "0.6",
        "the first row, 32 bytes",
    );
    finds(calls, 0, TOP, b"~", "0.2", "the last of a folder");
    finds(calls, 0, (0, 1), b"b", "0.9", "the last row");
    finds(calls, 0, TOP, b"b", "0.1", "a folder by its label");
    finds(calls, 0, TOP, b"a", "0.5", "a front of other labels");
}

fn odd_folders(calls: &mut Calls) {
    lists(calls, 0, (0, 2), "-", "a trace");
    finds(calls, 0, (0, 2), b"ab", "-", "in a trace");
    lists(calls, 0, (0, 11), "-", "an identity that no record has");
    finds(calls, 0, (0, 11), b"ab", "-", "in one that no record has");
    lists(calls, 0, (1, 1), "-", "an identity of another unit");
    lists(calls, 0, (7, 65_535), "-", "the greatest identity");
    finds(calls, 0, (7, 65_535), b"~", "-", "in the greatest identity");
    lists(calls, 0, (8, 0), "-", "unit 8, which 0.1 is not");
    finds(calls, 0, (8, 0), b"ab", "-", "in unit 8");
    lists(calls, 0, (256, 1), "-", "unit 256, whose low byte is 0");
    finds(calls, 0, (256, 1), b"ab", "-", "in unit 256");
    lists(
        calls,
        0,
        (0, 65_537),
        "-",
        "the number 65537, whose low half is 1",
    );
    finds(calls, 0, (0, 65_537), b"ab", "-", "in the number 65537");
    lists(calls, 0, (u32::MAX, u32::MAX), "-", "the greatest numbers");
    lists(calls, 0, (5, 0), "-", "an identity with the number 0");
    finds(calls, 0, (5, 0), b"a", "-", "in one with the number 0");
    lists(
        calls,
        0,
        (0, 256),
        "-",
        "0.256, whose bytes are those of 0.1 in another order",
    );
}

fn odd_labels(calls: &mut Calls) {
    finds(calls, 0, TOP, b"", "-", "an empty label");
    finds(calls, 0, TOP, b"A", "0.5", "a capital for a small letter");
    finds(calls, 0, TOP, b"b_", "0.4", "a small letter for a capital");
    finds(calls, 0, (0, 1), b"AB", "0.8", "the same in another folder");
    finds(calls, 0, TOP, b"a ", "-", "a space behind");
    finds(calls, 0, TOP, b" a", "-", "a space before");
    finds(calls, 0, TOP, b"a\0b", "-", "a zero inside");
    finds(calls, 0, TOP, b"\0a", "-", "a zero first");
    finds(calls, 0, TOP, b"a/b", "-", "a stroke");
    finds(calls, 0, TOP, &[0xff; 32], "-", "bytes above all labels");
    finds(calls, 0, TOP, &[0x1f], "-", "a byte below all labels");
    finds(
        calls,
        0,
        TOP,
        &LONG.as_bytes()[..31],
        "-",
        "31 bytes of a label of 32",
    );
    finds(
        calls,
        0,
        TOP,
        format!("{LONG}3").as_bytes(),
        "-",
        "33 bytes",
    );
    finds(calls, 0, TOP, b"aa", "-", "between two labels");
    finds(calls, 0, TOP, b"~~", "-", "behind the last");
}

fn changes(calls: &mut Calls) {
    calls.call(
        15,
        "a make of a label that is held is refused",
        act(0, 2, ROOT, "a"),
    );
    calls.call(15, "and of one in another case", act(0, 2, ROOT, "AB"));
    lists(
        calls,
        0,
        TOP,
        "0.6,0.5,0.7,0.3,0.1,0.4,0.2",
        "as before the refusals",
    );
    calls.call(0, "0.11 renames 0.5, a, to z", act(0, 5, (0, 5), "z"));
    lists(
        calls,
        0,
        TOP,
        "0.6,0.7,0.3,0.1,0.4,0.5,0.2",
        "the renamed one at its new place",
    );
    finds(calls, 0, TOP, b"a", "-", "the old label");
    finds(calls, 0, TOP, b"z", "0.5", "the new label");
    calls.call(
        0,
        "0.12 renames the folder 0.1 to C",
        act(0, 5, (0, 1), "C"),
    );
    lists(
        calls,
        0,
        TOP,
        "0.6,0.7,0.3,0.4,0.1,0.5,0.2",
        "the renamed folder",
    );
    lists(calls, 0, (0, 1), "0.10,0.8,0.9", "what lies in it");
    calls.call(0, "0.13 stores to 0.8", act(0, 3, (0, 8), ""));
    calls.call(0, "0.14 removes 0.8", act(0, 4, (0, 8), ""));
    lists(calls, 0, (0, 1), "0.10,0.9", "without the removed one");
    finds(calls, 0, (0, 1), b"ab", "-", "the removed one");
    calls.call(0, "0.15 makes its label again", act(0, 1, (0, 1), "ab"));
    finds(calls, 0, (0, 1), b"ab", "0.15", "the new one");
    lists(calls, 0, (0, 15), "-", "a folder without entries");
    calls.call(0, "0.16 makes a trace in it", act(0, 2, (0, 15), "x"));
    lists(calls, 0, (0, 15), "0.16", "a folder with one entry");
    calls.call(
        16,
        "a remove of the folder is refused",
        act(0, 4, (0, 15), ""),
    );
    calls.call(0, "0.17 removes the trace", act(0, 4, (0, 16), ""));
    calls.call(0, "0.18 removes the folder", act(0, 4, (0, 15), ""));
    lists(calls, 0, (0, 15), "-", "a removed folder");
    lists(calls, 0, (0, 1), "0.10,0.9", "where it lay");
}

/// Units 2 and 3: what stands aside is not listed, and comes back.
fn meeting(calls: &mut Calls) {
    calls.call(0, "2.1 makes the folder F", act(2, 1, ROOT, "F"));
    calls.call(0, "2.2 makes the trace k in it", act(2, 2, (2, 1), "k"));
    calls.call(0, "3.1 makes the folder F too", act(3, 1, ROOT, "F"));
    calls.call(0, "3.2 makes the trace j in 3.1", act(3, 2, (3, 1), "j"));
    lists(calls, 3, TOP, "3.1", "unit 3 before the meeting");
    lists(calls, 3, (3, 1), "3.2", "its folder");
    calls.call(0, "unit 3 takes the records of unit 2", take(2, 3));
    lists(calls, 3, TOP, "2.1", "3.1 stands aside");
    lists(calls, 3, (3, 1), "-", "the folder that stands aside");
    lists(calls, 3, (2, 1), "2.2", "the folder that came");
    finds(calls, 3, TOP, b"F", "2.1", "the label that both wanted");
    calls.call(0, "2.3 renames the folder 2.1 to G", act(2, 5, (2, 1), "G"));
    lists(calls, 2, TOP, "2.1", "unit 2 after it");
    calls.call(0, "unit 2 takes the records of unit 3", take(3, 2));
    lists(
        calls,
        2,
        TOP,
        "2.1",
        "at unit 2 3.1 stands aside too: 2.3 ranks behind it",
    );
    finds(calls, 2, TOP, b"G", "2.1", "the new label");
    finds(calls, 2, TOP, b"F", "-", "the label that stands aside");
    calls.call(0, "unit 3 takes 2.3", take(2, 3));
    lists(calls, 3, TOP, "2.1", "the same at unit 3");
    calls.call(0, "3.3 makes the folder F again", act(3, 1, ROOT, "F"));
    lists(calls, 3, TOP, "3.3,2.1", "both");
    calls.call(8, "a block that unit 0 cannot take yet", |list| {
        list.hand_out(3, Lent::Own, 7, 3, &[0, 0, 3, 1, 0, 0, 0, 0], (BLOCK, 1));
        let block = list.given[list.given.len() - 1].clone();
        list.take(0, Lent::Own, 7, 0, &block)
    });
    lists(calls, 0, (0, 1), "0.10,0.9", "unit 0 after the refusal");
    calls.call(0, "unit 0 takes the records of unit 3", take(3, 0));
    lists(
        calls,
        0,
        TOP,
        "0.6,0.7,0.3,0.4,0.1,3.3,2.1,0.5,0.2",
        "entries of three units in one folder",
    );
    lists(calls, 0, (2, 1), "2.2", "a folder of another unit");
    lists(calls, 0, (0, 1), "0.10,0.9", "a folder of the own unit");
}

/// Unit 5: signs around the letters, capitals and small letters; then unit 6, which
/// gave one label in another case.
fn cases(calls: &mut Calls) {
    for label in [
        "b", "A", "_", "C", "{", "[", "z", "@", "`", "Y", "^", "a_", "Ab",
    ] {
        calls.call(
            0,
            &format!("the trace {label} of unit 5"),
            act(5, 2, ROOT, label),
        );
    }
    lists(
        calls,
        5,
        TOP,
        "5.8,5.6,5.11,5.3,5.9,5.2,5.12,5.13,5.1,5.4,5.10,5.7,5.5",
        "@ [ ^ _ and the backquote before all letters, A a_ Ab b C Y z, then {",
    );
    finds(calls, 5, TOP, b"Z", "5.7", "a capital");
    finds(calls, 5, TOP, b"y", "5.10", "a small letter");
    finds(calls, 5, TOP, b"aB", "5.13", "one of each");
    finds(calls, 5, TOP, b"[", "5.6", "a bracket");
    finds(calls, 5, TOP, b"{", "5.5", "a brace");
    finds(calls, 5, TOP, b"]", "-", "another bracket");
    finds(calls, 5, TOP, b"@", "5.8", "the byte before A");
    finds(calls, 5, TOP, b"`", "5.9", "the byte before a");
    finds(
        calls,
        5,
        TOP,
        &[b'A' | 0x80],
        "-",
        "a capital with its upper bit set",
    );
    calls.call(15, "a trace B of unit 5", act(5, 2, ROOT, "B"));
    calls.call(0, "5.14 renames Ab to aB", act(5, 5, (5, 13), "aB"));
    calls.call(0, "5.15 renames it to aB again", act(5, 5, (5, 13), "aB"));
    lists(
        calls,
        5,
        TOP,
        "5.8,5.6,5.11,5.3,5.9,5.2,5.12,5.13,5.1,5.4,5.10,5.7,5.5",
        "the order stays",
    );
    finds(calls, 5, TOP, b"AB", "5.13", "the renamed one");
    calls.call(0, "6.1 makes the trace Z", act(6, 2, ROOT, "Z"));
    calls.call(0, "unit 6 takes six records of unit 5", take(5, 6));
    lists(
        calls,
        6,
        TOP,
        "5.6,5.3,5.2,5.1,5.4,6.1,5.5",
        "Z of unit 6 is the last of the letters",
    );
    calls.call(0, "unit 6 takes six more", take(5, 6));
    lists(
        calls,
        6,
        TOP,
        "5.8,5.6,5.11,5.3,5.9,5.2,5.12,5.1,5.4,5.10,6.1,5.5",
        "z of unit 5 stands aside: 6.1 has the label",
    );
    finds(calls, 6, TOP, b"z", "6.1", "the one that has it");
    calls.call(0, "what unit 6 shows", |list| list.show(6, Lent::Own));
}

/// Unit 7: the folders 7.1 F and 7.2 G, the traces 7.3 a and 7.4 c in F, 7.5 b in G;
/// then unit 4, which moves what unit 7 moves too.
fn moves(calls: &mut Calls) {
    let moves = |unit: u8, object: Id, folder: Id, label: &str| {
        let mut wish = moved(unit, &[], object, folder, label, 3);
        wish[2..20].fill(0);
        move |list: &mut List| list.act(unit.into(), Lent::Own, 7, unit, &wish)
    };
    calls.call(0, "7.1 makes the folder F", act(7, 1, ROOT, "F"));
    calls.call(0, "7.2 makes the folder G", act(7, 1, ROOT, "G"));
    calls.call(0, "7.3 makes the trace a in F", act(7, 2, (7, 1), "a"));
    calls.call(0, "7.4 makes the trace c in F", act(7, 2, (7, 1), "c"));
    calls.call(0, "7.5 makes the trace b in G", act(7, 2, (7, 2), "b"));
    calls.call(0, "unit 4 takes them", take(7, 4));
    calls.call(0, "7.6 moves a into G as C", moves(7, (7, 3), (7, 2), "C"));
    lists(calls, 7, (7, 1), "7.4", "the folder that it left");
    lists(calls, 7, (7, 2), "7.5,7.3", "the folder that it came to");
    finds(
        calls,
        7,
        (7, 1),
        b"a",
        "-",
        "the old label in the old folder",
    );
    finds(
        calls,
        7,
        (7, 2),
        b"a",
        "-",
        "the old label in the new folder",
    );
    finds(
        calls,
        7,
        (7, 2),
        b"c",
        "7.3",
        "the new label in the new folder",
    );
    finds(
        calls,
        7,
        (7, 1),
        b"c",
        "7.4",
        "the same label in the old folder",
    );
    calls.call(
        0,
        "7.7 moves it to where it is, as A",
        moves(7, (7, 3), (7, 2), "A"),
    );
    lists(calls, 7, (7, 2), "7.3,7.5", "at its new place in the order");
    calls.call(
        0,
        "7.8 moves the folder G into F",
        moves(7, (7, 2), (7, 1), "B"),
    );
    lists(calls, 7, TOP, "7.1", "the root without it");
    lists(calls, 7, (7, 1), "7.2,7.4", "the folder with it");
    lists(calls, 7, (7, 2), "7.3,7.5", "what lies in the moved folder");
    calls.call(25, "F into G is refused", moves(7, (7, 1), (7, 2), "F"));
    calls.call(
        15,
        "c into G as B is refused",
        moves(7, (7, 4), (7, 2), "B"),
    );
    lists(calls, 7, (7, 1), "7.2,7.4", "as before the refusals");
    calls.call(0, "7.9 moves c to the root", moves(7, (7, 4), ROOT, "c"));
    lists(calls, 7, TOP, "7.4,7.1", "the root with it");
    calls.call(0, "4.1 moves a to the root", moves(4, (7, 3), ROOT, "a"));
    calls.call(0, "4.2 moves F into G", moves(4, (7, 1), (7, 2), "F"));
    lists(calls, 4, TOP, "7.3,7.2", "unit 4 before the meeting");
    lists(calls, 4, (7, 2), "7.5,7.1", "the folder that F went into");
    calls.call(0, "unit 7 takes 4.1 and 4.2", take(4, 7));
    lists(
        calls,
        7,
        TOP,
        "7.3,7.4,7.2",
        "4.1 and 4.2 rank first, so 7.6, 7.7 (17) and 7.8 (25) stand aside",
    );
    lists(calls, 7, (7, 2), "7.5,7.1", "G with F in it");
    calls.call(0, "unit 4 takes what unit 7 did", take(7, 4));
    lists(calls, 4, TOP, "7.3,7.4,7.2", "the same at unit 4");
    calls.call(0, "what unit 4 shows", |list| list.show(4, Lent::Own));
}

fn restart(calls: &mut Calls) {
    let start = |unit| move |list: &mut List| list.start(0, Lent::Own, 7, unit);
    calls.call(21, "a start by unit 8 is refused", start(8));
    finds(calls, 0, TOP, b"F", "3.3", "after the refusal");
    calls.call(0, "unit 0 is started again", start(0));
    lists(calls, 0, TOP, "-", "the root of a started log");
    finds(calls, 0, TOP, b"F", "-", "in a started log");
}
