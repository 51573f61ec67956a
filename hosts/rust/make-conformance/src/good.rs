//! Good files.

use crate::kit::{Case, good};
use make_vectors::chain::{Fields, blocks_of_six, file_of};
use make_vectors::examples::{
    ROOT, moved, moves, operations, paper, reasons, record, removed, two_blocks,
};
use workload::{Mix, log_of};

pub fn all() -> Vec<Case> {
    let mut cases = vec![
        good(
            "empty",
            "an empty log: one block of count 0; the greatest archive number",
            file_of(&[], u32::MAX, 7),
        ),
        good(
            "paper",
            "the worked example of docs/FORMAT.md: quotes in a label, a disputed trace",
            file_of(&paper(), 7, 0),
        ),
        good(
            "two-blocks",
            "the worked example of two blocks of docs/FORMAT.md: the bytes of an archive number, a \
             backslash in a label, a store and a rename apart, a settled aside, a removed trace",
            file_of(&two_blocks(), 305_419_896, 2),
        ),
        good(
            "operations",
            "each operation but move once, in one full block; a settled aside (docs/EXAMPLES.md)",
            file_of(&operations(), 7, 1),
        ),
        good(
            "folders-crossing",
            "two folders moved into each other, and a trace moved (docs/EXAMPLES.md)",
            file_of(&moves(), 7, 0),
        ),
        good(
            "reasons",
            "an aside of each reason 12 to 18, in three blocks (docs/EXAMPLES.md)",
            file_of(&reasons(), 7, 0),
        ),
        good(
            "removed",
            "asides that mark a removed entry, a settled and an open one (docs/EXAMPLES.md)",
            file_of(&removed(), u32::MAX, 2),
        ),
        good(
            "seven-records",
            "seven records: a full block and one of count 1; a sender that made none",
            file_of(&blocks_of_six(2)[..7], 0, 5),
        ),
        good(
            "512-records",
            "a full log: 86 blocks, the last of count 2",
            full(&Mix::CONFLICTS, 41),
        ),
        good(
            "512-with-moves",
            "a full log of which every third record or so is a move",
            full(&Mix::MOVES, 42),
        ),
    ];
    cases.extend(fields());
    cases.extend(marking());
    cases.extend(settling());
    cases.extend(trees());
    cases.extend(moving());
    cases.extend(sums());
    cases
}

/// The records of a log drawn by chance.
fn full(mix: &Mix, seed: u64) -> Vec<u8> {
    let log = log_of(512, 8, 4, mix, seed);
    let (records, _) = log.as_chunks::<80>();
    file_of(&records[..512], 9, 2)
}

/// A trace in the root with its date, label and mark.
fn trace(seen: u16, date: (u16, u8, u8), label: &str, mark: [u8; 16]) -> [u8; 80] {
    let mut record = Fields {
        unit: 0,
        operation: 2,
        seen: &[seen],
        named: ROOT,
        date,
        label,
        mark: 0,
    }
    .record();
    record[64..].copy_from_slice(&mark);
    record
}

/// Fields with their first and last legal values.
fn fields() -> Vec<Case> {
    let dates = [
        (1990, 1, 1),
        (2199, 12, 31),
        (2000, 2, 29),
        (2024, 2, 29),
        (2100, 2, 28),
        (2025, 4, 30),
    ];
    let dated: Vec<[u8; 80]> = (0..)
        .zip(dates)
        .map(|(seen, date)| trace(seen, date, &format!("T{seen}"), [0; 16]))
        .collect();
    let labels = [
        "~",
        "!\"#$%&'()*+,-./0123456789:;<=>?@",
        "ABCDEFGHIJKLMNOPQRSTUVWXYZ[\\]^_`",
        "a  b",
        "a",
        "A",
    ];
    let labelled: Vec<[u8; 80]> = (0..)
        .zip(labels)
        .map(|(seen, label)| trace(seen, (2025, 3, 3), label, [0; 16]))
        .collect();
    let marks = [
        std::array::from_fn(|i| 16 * i as u8 + i as u8),
        std::array::from_fn(|i| 0xf0 - 15 * i as u8),
        [0; 16],
        [0xff; 16],
    ];
    let marked: Vec<[u8; 80]> = (0..)
        .zip(marks)
        .map(|(seen, mark)| trace(seen, (2025, 3, 3), &format!("M{seen}"), mark))
        .collect();
    vec![
        good(
            "dates",
            "the first and the last date, leap days, the last day of a short month",
            file_of(&dated, 7, 0),
        ),
        good(
            "labels",
            "labels of 1 and 32 bytes, every printable kind of byte, spaces within; of a small letter and \
             its capital the later one stands aside (15)",
            file_of(&labelled, 7, 0),
        ),
        good(
            "marks",
            "marks of many bytes, zeros and all ones: digits in the order of the bytes",
            file_of(&marked, 7, 0),
        ),
    ]
}

/// The same log but for the mark of 0.2.
fn marking() -> Vec<Case> {
    let shown = |mark| {
        let records = [
            record(0, &[], 1, ROOT, "Bench", 0, 3),
            record(0, &[1], 2, (0, 1), "Gain", mark, 4),
            record(1, &[1], 2, (0, 1), "Gain", 0x22, 5),
            record(0, &[2], 5, (0, 2), "Gain 2", 0, 6),
        ];
        file_of(&records, 7, 0)
    };
    let stored = |mark| {
        let records = [
            record(0, &[], 1, ROOT, "Bench", 0, 3),
            record(0, &[1], 2, (0, 1), "Gain", mark, 4),
            record(0, &[2], 3, (0, 2), "", 0x22, 5),
            record(1, &[2], 3, (0, 2), "", 0x44, 5),
        ];
        file_of(&records, 7, 0)
    };
    let cases = vec![
        good(
            "mark-a",
            "a mark that is shown; another make of the label stands aside (15), a rename acts",
            shown(0x11),
        ),
        good(
            "mark-b",
            "good-mark-a but for the mark of 0.2: that mark alone is shown otherwise",
            shown(0x33),
        ),
        good(
            "mark-stored-a",
            "a mark that is not shown: a later store has fitted; another stands aside (17)",
            stored(0x11),
        ),
        good(
            "mark-stored-b",
            "good-mark-stored-a but for the mark of 0.2: the same listing",
            stored(0x33),
        ),
    ];
    let differing = |one: &Case, other: &Case| {
        let lines = one.listing.lines().zip(other.listing.lines());
        lines.filter(|(one, other)| one != other).count()
    };
    assert_eq!(differing(&cases[0], &cases[1]), 1);
    assert_eq!(cases[2].listing, cases[3].listing);
    cases
}

/// Asides settled in every way.
fn settling() -> Vec<Case> {
    vec![
        good(
            "settled-twice",
            "a second settle of an aside fits; a settle of a settle that fitted stands aside (18); a \
             settle of that one fits",
            file_of(
                &[
                    record(0, &[], 2, ROOT, "A", 1, 3),
                    record(1, &[], 2, ROOT, "A", 2, 3),
                    record(0, &[1, 1], 6, (1, 1), "", 0, 4),
                    record(1, &[2, 1], 6, (1, 1), "", 0, 5),
                    record(0, &[2, 2], 6, (0, 2), "", 0, 6),
                    record(1, &[3, 2], 6, (0, 3), "", 0, 7),
                ],
                7,
                0,
            ),
        ),
        good(
            "still-disputed",
            "of two asides that mark one entry one is settled: the entry is still disputed",
            file_of(
                &[
                    record(0, &[], 1, ROOT, "A", 0, 3),
                    record(1, &[], 1, ROOT, "A", 0, 3),
                    record(2, &[], 2, ROOT, "A", 3, 3),
                    record(0, &[1, 1, 1], 6, (2, 1), "", 0, 4),
                ],
                7,
                0,
            ),
        ),
        good(
            "no-longer-disputed",
            "the only aside that marks an entry is settled: the entry is not disputed",
            file_of(
                &[
                    record(0, &[], 2, ROOT, "A", 1, 3),
                    record(1, &[], 2, ROOT, "A", 2, 3),
                    record(1, &[1, 1], 6, (1, 1), "", 0, 4),
                ],
                7,
                1,
            ),
        ),
    ]
}

/// What the rules of replay leave in the tree.
fn trees() -> Vec<Case> {
    vec![
        good(
            "store-and-rename",
            "a store and a rename that did not see each other both fit: date and mark of the store, \
             label of the rename",
            file_of(
                &[
                    record(0, &[], 2, ROOT, "A", 1, 3),
                    record(0, &[1], 3, (0, 1), "", 2, 9),
                    record(1, &[1], 5, (0, 1), "B", 0, 5),
                ],
                7,
                0,
            ),
        ),
        good(
            "stores-apart",
            "of two stores that did not see each other the one of higher rank stands aside (17), \
             whatever the dates say",
            file_of(
                &[
                    record(0, &[], 2, ROOT, "A", 1, 3),
                    record(0, &[1], 3, (0, 1), "", 2, 9),
                    record(1, &[1], 3, (0, 1), "", 3, 5),
                ],
                7,
                0,
            ),
        ),
        good(
            "rename-unseen-first",
            "a rename that has not seen the last rename, to a label that is held: 17, not 15",
            file_of(
                &[
                    record(0, &[], 2, ROOT, "A", 1, 3),
                    record(0, &[1], 2, ROOT, "B", 2, 3),
                    record(0, &[2], 5, (0, 1), "C", 0, 4),
                    record(1, &[2], 5, (0, 1), "B", 0, 4),
                ],
                7,
                0,
            ),
        ),
        good(
            "remove-full-first",
            "a remove of a folder with an entry, which has not seen its last rename: 16, not 17",
            file_of(
                &[
                    record(0, &[], 1, ROOT, "F", 0, 3),
                    record(0, &[1], 5, (0, 1), "G", 0, 4),
                    record(1, &[1], 2, ROOT, "X", 4, 4),
                    record(0, &[2], 2, (0, 1), "T", 2, 4),
                    record(1, &[1, 1], 2, ROOT, "Y", 4, 4),
                    record(1, &[1, 2], 4, (0, 1), "", 0, 4),
                ],
                7,
                0,
            ),
        ),
        good(
            "own-label",
            "a rename to the label that the entry has, in the same bytes: it fits",
            file_of(
                &[
                    record(0, &[], 1, ROOT, "F", 0, 3),
                    record(0, &[1], 5, (0, 1), "F", 0, 4),
                ],
                7,
                0,
            ),
        ),
        good(
            "own-label-last",
            "a rename to the own label is the last place record: a rename and a remove that have not seen \
             it stand aside (17)",
            file_of(
                &[
                    record(0, &[], 2, ROOT, "Gain", 1, 3),
                    record(0, &[1], 5, (0, 1), "Gain", 0, 4),
                    record(1, &[1], 5, (0, 1), "Loss", 0, 4),
                    record(2, &[1], 4, (0, 1), "", 0, 4),
                ],
                7,
                0,
            ),
        ),
        good(
            "case",
            "a make and a rename whose label differs from a held one in capitals and small letters alone \
             stand aside (15); labels are shown as they were written; a rename to another case of the own \
             label fits, and is the last place record (17)",
            file_of(
                &[
                    record(0, &[], 2, ROOT, "Noise Figure", 1, 3),
                    record(1, &[], 2, ROOT, "NOISE fIGURE", 2, 3),
                    record(0, &[1, 1], 2, ROOT, "azAZ", 3, 4),
                    record(1, &[2, 1], 5, (0, 2), "noise figure", 0, 4),
                    record(0, &[2, 2], 5, (0, 2), "AZaz", 0, 5),
                    record(1, &[2, 2], 5, (0, 2), "b", 0, 5),
                ],
                7,
                0,
            ),
        ),
        good(
            "brackets",
            "@ and the backquote, brackets and braces, backslash and bar, ^ and ~ stay different, also \
             before letters; so do digits and letters",
            file_of(
                &[
                    "@A", "`a", "[A", "{a", "\\a", "|A", "]a", "}A", "^a", "~A", "_a", "0", "P",
                ]
                .into_iter()
                .zip(0..)
                .map(|(label, seen)| trace(seen, (2025, 3, 3), label, [0; 16]))
                .collect::<Vec<_>>(),
                7,
                0,
            ),
        ),
        good(
            "case-in-folders",
            "a label in another case is free in another folder, in the folder that has it as its own label, \
             and again after a rename and a remove",
            file_of(
                &[
                    record(0, &[], 1, ROOT, "Bench", 0, 3),
                    record(0, &[1], 2, (0, 1), "BENCH", 1, 3),
                    record(0, &[2], 5, (0, 2), "Spare", 0, 4),
                    record(0, &[3], 2, (0, 1), "bench", 2, 4),
                    record(0, &[4], 4, (0, 4), "", 0, 5),
                    record(0, &[5], 1, (0, 1), "bEnch", 0, 5),
                    record(0, &[6], 2, (0, 6), "SPARE", 3, 5),
                ],
                7,
                0,
            ),
        ),
        good(
            "label-free-again",
            "a label is free again after a rename and after a remove; the same label in another folder \
             is another's",
            file_of(
                &[
                    record(0, &[], 2, ROOT, "A", 1, 3),
                    record(0, &[1], 5, (0, 1), "B", 0, 3),
                    record(0, &[2], 1, ROOT, "A", 0, 4),
                    record(0, &[3], 4, (0, 1), "", 0, 4),
                    record(0, &[4], 2, ROOT, "B", 5, 5),
                    record(0, &[5], 2, (0, 3), "B", 6, 5),
                ],
                7,
                0,
            ),
        ),
        good(
            "folder-renamed",
            "a folder is renamed and keeps what lies in it; a folder in a folder",
            file_of(
                &[
                    record(0, &[], 1, ROOT, "F", 0, 3),
                    record(0, &[1], 1, (0, 1), "G", 0, 3),
                    record(1, &[2], 2, (0, 2), "T", 3, 3),
                    record(0, &[2, 1], 5, (0, 1), "H", 0, 4),
                ],
                7,
                0,
            ),
        ),
        good(
            "named-no-make",
            "a store names a store, a make stands in an aside make, a remove names a removed entry: 12, \
             13, 12",
            file_of(
                &[
                    record(0, &[], 1, ROOT, "A", 0, 3),
                    record(1, &[], 1, ROOT, "A", 0, 3),
                    record(0, &[1, 1], 2, (1, 1), "T", 1, 4),
                    record(0, &[2, 1], 4, (0, 1), "", 0, 4),
                    record(0, &[3, 1], 4, (0, 1), "", 0, 4),
                    record(0, &[4, 1], 3, (0, 3), "", 1, 4),
                ],
                7,
                0,
            ),
        ),
        good(
            "acts-again",
            "2.1 would stand aside beside 0.1; 1.1, which ranks between them, renames 0.1, so 2.1 acts",
            file_of(
                &[
                    record(0, &[], 2, ROOT, "A", 1, 3),
                    record(1, &[1], 5, (0, 1), "C", 0, 5),
                    record(2, &[1], 2, ROOT, "A", 2, 4),
                ],
                7,
                0,
            ),
        ),
        good(
            "rank-by-unit",
            "eight makes of one label with the sum 0: the lowest unit acts, the others stand aside by \
             rising unit",
            file_of(
                &(0..8)
                    .map(|unit| record(unit, &[], 2, ROOT, "A", unit, 11 - unit))
                    .collect::<Vec<_>>(),
                7,
                3,
            ),
        ),
    ]
}

/// A file of some records by rank.
fn ranked(mut records: Vec<[u8; 80]>) -> Vec<u8> {
    records.sort_by_key(|record| {
        let seen = record[4..20].as_chunks::<2>().0;
        let sum: u32 = seen
            .iter()
            .map(|count| u32::from(u16::from_le_bytes(*count)))
            .sum();
        (sum, record[0])
    });
    file_of(&records, 7, 0)
}

/// Moves: what they do, and each reason against one.
fn moving() -> Vec<Case> {
    let folder = |seen, inside, label| record(0, &[seen], 1, inside, label, 0, 3);
    let trace = |seen, inside, label| record(0, &[seen], 2, inside, label, 1, 3);
    vec![
        good(
            "moves",
            "a trace is moved under another label, then the folder with it, then the trace to the root, and \
             to where it is; it keeps its line, its date and its mark; the folders it left can be removed",
            ranked(vec![
                folder(0, ROOT, "A"),
                folder(1, ROOT, "B"),
                trace(2, (0, 1), "T"),
                moved(0, &[3], (0, 3), (0, 2), "U", 4),
                moved(0, &[4], (0, 2), (0, 1), "B", 4),
                record(0, &[5], 3, (0, 3), "", 2, 9),
                moved(0, &[6], (0, 3), ROOT, "U", 4),
                moved(0, &[7], (0, 3), ROOT, "u", 4),
                folder(8, ROOT, "B"),
                moved(0, &[9], (0, 1), (0, 9), "A", 5),
                record(0, &[10], 4, (0, 2), "", 0, 5),
                record(0, &[11], 4, (0, 1), "", 0, 5),
            ]),
        ),
        good(
            "crossing-moves",
            "three units move three folders into each other, without having seen it: the one of highest rank \
             stands aside (25)",
            ranked(vec![
                folder(0, ROOT, "A"),
                folder(1, ROOT, "B"),
                folder(2, ROOT, "C"),
                moved(0, &[3], (0, 1), (0, 2), "A", 4),
                moved(1, &[3], (0, 2), (0, 3), "B", 4),
                moved(2, &[3], (0, 3), (0, 1), "C", 4),
            ]),
        ),
        good(
            "move-reasons",
            "a move that stands aside under each of its reasons: 12, 17, 13, 14, 25 (into itself, and below \
             itself), 15; one of them is settled",
            ranked(vec![
                folder(0, ROOT, "F"),
                folder(1, (0, 1), "G"),
                trace(2, ROOT, "T"),
                trace(3, (0, 2), "S"),
                folder(4, ROOT, "Old"),
                record(0, &[5], 4, (0, 5), "", 0, 4),
                moved(1, &[5], (0, 3), (0, 5), "T", 4),
                moved(1, &[5, 1], (0, 5), ROOT, "Older", 4),
                record(2, &[5], 5, (0, 3), "T 2", 0, 4),
                moved(1, &[5, 2], (0, 3), (0, 1), "T", 5),
                moved(1, &[5, 3], (0, 4), (0, 3), "S", 5),
                moved(1, &[5, 4], (0, 1), (0, 1), "F", 5),
                moved(1, &[5, 5], (0, 1), (0, 2), "F", 5),
                moved(1, &[5, 6], (0, 4), (0, 1), "g", 5),
                record(1, &[5, 7], 6, (1, 5), "", 0, 6),
            ]),
        ),
        good(
            "move-first-reason",
            "moves for which two reasons hold: 17 before 13 and before 25; a trace into itself and a folder \
             into a trace below it are 14, not 25; 25 before 15; 12 before 13",
            ranked(vec![
                folder(0, ROOT, "F"),
                folder(1, (0, 1), "G"),
                trace(2, (0, 2), "T"),
                folder(3, ROOT, "Old"),
                record(0, &[4], 5, (0, 1), "F 2", 0, 4),
                record(0, &[5], 4, (0, 4), "", 0, 4),
                record(1, &[4], 2, ROOT, "X", 3, 4),
                moved(1, &[4, 1], (0, 1), (0, 4), "F", 4),
                moved(1, &[4, 2], (0, 1), (0, 2), "F", 4),
                moved(2, &[6, 3], (0, 3), (0, 3), "T", 5),
                moved(2, &[6, 3, 1], (0, 1), (0, 3), "F", 5),
                moved(2, &[6, 3, 2], (0, 1), (0, 2), "T", 5),
                moved(2, &[6, 3, 3], (0, 4), (0, 4), "Old", 5),
            ]),
        ),
        good(
            "last-place",
            "a rename, a remove and a move that have not seen the last move stand aside (17); a store has not \
             to have seen it, nor a move a store; a folder into which something was moved is 16 before 17; \
             one out of which the last entry was moved can be removed",
            ranked(vec![
                folder(0, ROOT, "F"),
                trace(1, ROOT, "T"),
                folder(2, ROOT, "G"),
                trace(3, (0, 3), "X"),
                moved(0, &[4], (0, 2), (0, 1), "T", 4),
                record(1, &[4], 5, (0, 2), "T 2", 0, 4),
                record(1, &[4, 1], 4, (0, 2), "", 0, 4),
                moved(1, &[4, 2], (0, 2), (0, 3), "T", 4),
                record(1, &[4, 3], 3, (0, 2), "", 7, 8),
                record(1, &[4, 4], 4, (0, 1), "", 0, 4),
                moved(0, &[5], (0, 4), (0, 1), "X", 5),
                record(1, &[4, 5], 4, (0, 3), "", 0, 5),
                moved(2, &[6, 3], (0, 2), ROOT, "T", 6),
            ]),
        ),
        good(
            "own-place-last",
            "a move to where the entry is fits and is the last place record: a rename and a remove that have \
             not seen it stand aside (17)",
            ranked(vec![
                folder(0, ROOT, "F"),
                trace(1, (0, 1), "Gain"),
                moved(0, &[2], (0, 2), (0, 1), "Gain", 4),
                record(1, &[2], 5, (0, 2), "Loss", 0, 4),
                record(2, &[2], 4, (0, 2), "", 0, 4),
            ]),
        ),
        good(
            "move-acts-again",
            "2.1 would stand aside beside 0.2; 1.1, which ranks between them, moves 0.2 away, so 2.1 acts",
            ranked(vec![
                folder(0, ROOT, "F"),
                trace(1, ROOT, "A"),
                moved(1, &[2], (0, 2), (0, 1), "A", 5),
                record(2, &[2], 2, ROOT, "a", 2, 4),
            ]),
        ),
        good(
            "deepest-move",
            "511 folders, each in the one before, and a move of the first into the last: 25, found after 510 \
             steps up",
            ranked(deepest()),
        ),
    ]
}

/// Folders in folders, and the first moved into the last.
fn deepest() -> Vec<[u8; 80]> {
    let mut records: Vec<[u8; 80]> = (0..511)
        .map(|seen| record(0, &[seen], 1, (0, seen), "D", 0, 3))
        .collect();
    records.push(moved(0, &[511], (0, 1), (0, 511), "D", 4));
    records
}

/// Blocks whose sums are 0, which is stored as 0.
fn sums() -> Vec<Case> {
    vec![
        good(
            "first-sum-zero",
            "an archive number that makes the first sum 0",
            zero_sum(0),
        ),
        good(
            "second-sum-zero",
            "an archive number that makes the second sum 0",
            zero_sum(1),
        ),
    ]
}

/// The paper's file with the least archive number that makes a sum 0.
pub fn zero_sum(which: usize) -> Vec<u8> {
    (0..65_521)
        .map(|archive| file_of(&paper(), archive, 0))
        .find(|file| file[508 + 2 * which..510 + 2 * which] == [0, 0])
        .expect("a sum runs through all its values")
}
