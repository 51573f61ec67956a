//! Files that are refused: one for each number and each of its causes, and pairs
//! of faults of which the first in the order of the checks is told.

use crate::good::zero_sum;
use crate::kit::{Case, changed, refused, sealed_at};
use make_vectors::chain::{blocks_of_six, file_of, seal};
use make_vectors::examples::{ROOT, moved, not_closed, record};
use plain::BLOCK;

pub fn all() -> Vec<Case> {
    let mut cases = lengths();
    cases.extend(letters());
    cases.extend(sums());
    cases.extend(headers());
    cases.extend(disagreeing());
    cases.extend(too_many());
    cases.extend(malformed());
    cases.extend(malformed_moves());
    cases.extend(ranks());
    cases.extend(numbers());
    cases.extend(unclosed());
    cases.extend(counts());
    cases.extend(two_faults());
    cases
}

/// Two full blocks, of archive 7 and unit 0: in each a make folder, make trace,
/// store, rename, remove and settle.
pub fn base() -> Vec<u8> {
    file_of(&blocks_of_six(2), 7, 0)
}

/// The bytes of a record of a block, changed from an offset on.
fn in_record(record: usize, changes: &[(usize, u8)]) -> Vec<(usize, u8)> {
    changes
        .iter()
        .map(|(at, byte)| (28 + 80 * record + at, *byte))
        .collect()
}

fn lengths() -> Vec<Case> {
    let file = base();
    let case = |name, shows, file| refused(2, 0, name, shows, file);
    vec![
        case("no-bytes", "no bytes at all", Vec::new()),
        case("one-byte", "a single byte", b"S".to_vec()),
        case(
            "one-short",
            "a block without its last byte",
            file[..BLOCK - 1].to_vec(),
        ),
        case(
            "one-over",
            "a byte behind the last block",
            [&file[..], &[0]].concat(),
        ),
        case(
            "cut-in-a-block",
            "a good file cut within its last block",
            file[..700].to_vec(),
        ),
        case("87-blocks", "87 blocks", vec![0; 87 * BLOCK]),
    ]
}

fn letters() -> Vec<Case> {
    let file = base();
    let first = sealed_at(&file, 0, &[(3, b'0')]);
    let second = sealed_at(&file, 1, &[(0, b's')]);
    let padded = [&file[..], &[0; BLOCK]].concat();
    vec![
        refused(3, 0, "first", "the first block begins with SAB0", first),
        refused(3, 1, "small", "the last block begins with sAB1", second),
        refused(
            3,
            2,
            "padded",
            "a good file of full blocks with a block of zeros behind it",
            padded,
        ),
    ]
}

fn sums() -> Vec<Case> {
    let file = base();
    let case =
        |name, shows, changes: &[(usize, u8)]| refused(4, 1, name, shows, changed(&file, changes));
    let flip = |at: usize| (512 + at, file[512 + at] ^ 1);
    let mut exchanged = file.clone();
    exchanged[512 + 12..512 + 16].rotate_left(2);
    let stored = |which: usize| {
        let mut file = zero_sum(which);
        file[508 + 2 * which..510 + 2 * which].copy_from_slice(&65_521u16.to_le_bytes());
        file
    };
    vec![
        case("header", "a bit of the header changed", &[flip(4)]),
        case("record", "a bit of a record changed", &[flip(200)]),
        case("first-sum", "a bit of the first sum changed", &[flip(508)]),
        case(
            "second-sum",
            "a bit of the second sum changed",
            &[flip(511)],
        ),
        refused(
            4,
            1,
            "exchanged",
            "two words exchanged: the first sum is the same, the second is not",
            exchanged,
        ),
        refused(
            4,
            0,
            "first-sum-65521",
            "the first sum is 0, and 65521 is stored",
            stored(0),
        ),
        refused(
            4,
            0,
            "second-sum-65521",
            "the second sum is 0, and 65521 is stored",
            stored(1),
        ),
    ]
}

fn headers() -> Vec<Case> {
    let full = base();
    let short = file_of(&blocks_of_six(2)[..9], 7, 0);
    let both = sealed_at(&sealed_at(&full, 0, &[(8, 8)]), 1, &[(8, 8)]);
    vec![
        refused(5, 0, "unit-everywhere", "unit 8 in every header", both),
        refused(
            5,
            1,
            "unit",
            "unit 255 in the last header",
            sealed_at(&full, 1, &[(8, 255)]),
        ),
        refused(
            5,
            1,
            "count",
            "a count of 7",
            sealed_at(&full, 1, &[(9, 7)]),
        ),
        refused(
            5,
            1,
            "count-too-low",
            "a count of 2 where three records stand",
            sealed_at(&short, 1, &[(9, 2)]),
        ),
        refused(
            5,
            1,
            "unused-first",
            "the first byte behind the last record is not zero",
            sealed_at(&short, 1, &[(28 + 240, 1)]),
        ),
        refused(
            5,
            1,
            "unused-last",
            "the last byte before the sums is not zero",
            sealed_at(&short, 1, &[(507, 1)]),
        ),
    ]
}

fn disagreeing() -> Vec<Case> {
    let file = base();
    let case = |place, name, shows, changes: &[(usize, u8)]| {
        refused(20, place, name, shows, sealed_at(&file, place, changes))
    };
    let mut short = file.clone();
    short[9] = 5;
    short[28 + 400..508].fill(0);
    seal(&mut short[..BLOCK]);
    let none = file_of(&[], 7, 0);
    let empty = sealed_at(
        &[file_of(&blocks_of_six(1), 7, 0), none].concat(),
        1,
        &[(10, 1), (12, 4), (14, 1), (16, 1)],
    );
    let repeated = [&file[..BLOCK], &file[..BLOCK]].concat();
    let padded = [&file_of(&blocks_of_six(1)[..2], 7, 0)[..], &[0; BLOCK]].concat();
    vec![
        case(
            0,
            "place-of-first",
            "the first block has place 1",
            &[(10, 1)],
        ),
        case(
            1,
            "place-high-byte",
            "the second block has place 257",
            &[(11, 1)],
        ),
        refused(
            20,
            1,
            "block-twice",
            "the first block stands twice",
            repeated,
        ),
        case(1, "unit", "the second block is of another unit", &[(8, 1)]),
        case(
            1,
            "archive",
            "the second block is of another archive",
            &[(7, 1)],
        ),
        case(
            1,
            "vector",
            "the second block has another vector",
            &[(26, 1)],
        ),
        refused(
            20,
            0,
            "short-block",
            "a block of count 5 that is not the last",
            short,
        ),
        refused(
            20,
            1,
            "empty-last",
            "a block of count 0 behind a full one",
            empty,
        ),
        refused(
            20,
            0,
            "padded",
            "a good file with a short last block and a block of zeros behind it",
            padded,
        ),
    ]
}

/// 512 stores behind a make, by all units.
fn long() -> Vec<[u8; 80]> {
    let mut counts = [0u16; 8];
    (0..513)
        .map(|i| {
            let unit = (i % 8) as u8;
            let record = match i {
                0 => record(unit, &counts, 2, ROOT, "T", 1, 3),
                _ => record(unit, &counts, 3, (0, 1), "", 2, 3),
            };
            counts[unit as usize] += 1;
            record
        })
        .collect()
}

fn too_many() -> Vec<Case> {
    let mut last = long();
    last[512] = [0; 80];
    vec![
        refused(
            11,
            85,
            "513-records",
            "513 good records, in 86 blocks",
            file_of(&long(), 7, 0),
        ),
        refused(
            11,
            85,
            "513th-malformed",
            "513 records, the last of which is all zeros: 11 comes before 7",
            file_of(&last, 7, 0),
        ),
    ]
}

/// What is wrong with a record: the name, what it shows, the record of the block
/// (0 make folder, 1 make trace, 2 store, 3 rename, 4 remove, 5 settle), and the
/// bytes changed.
pub type Wrong = (&'static str, &'static str, usize, &'static [(usize, u8)]);

pub const MALFORMED: &[Wrong] = &[
    ("unit-8", "a record of unit 8", 0, &[(0, 8)]),
    ("operation-0", "operation 0", 0, &[(1, 0)]),
    ("operation-8", "operation 8", 5, &[(1, 8)]),
    (
        "number-0",
        "number 0, with 65535 seen of the own unit",
        0,
        &[(2, 0), (4, 255), (5, 255)],
    ),
    (
        "own-seen",
        "as many seen of the own unit as the number says",
        1,
        &[(4, 6)],
    ),
    ("object-number-0", "the object 1.0", 5, &[(22, 0)]),
    (
        "object-root",
        "the root as object",
        4,
        &[(20, 0), (22, 0), (23, 0)],
    ),
    ("object-unit-8", "an object of unit 8", 3, &[(20, 8)]),
    (
        "object-byte",
        "the byte behind the object's unit is 1",
        3,
        &[(21, 1)],
    ),
    (
        "object-beyond",
        "an object that the record has not seen",
        3,
        &[(20, 2), (22, 2)],
    ),
    (
        "object-itself",
        "a store names itself as object",
        2,
        &[(22, 7)],
    ),
    ("object-of-make", "a make with an object", 0, &[(22, 1)]),
    (
        "object-of-trace",
        "a make trace with an object",
        1,
        &[(20, 1)],
    ),
    ("folder-3.0", "the folder 3.0", 0, &[(24, 3)]),
    ("folder-unit-8", "a folder of unit 8", 1, &[(24, 8)]),
    (
        "folder-byte",
        "the byte behind the folder's unit is 1",
        1,
        &[(25, 1)],
    ),
    (
        "root-byte",
        "the root as folder, with a byte behind its unit",
        0,
        &[(25, 1)],
    ),
    (
        "folder-beyond",
        "a folder that the record has not seen",
        1,
        &[(27, 1)],
    ),
    ("folder-of-store", "a store with a folder", 2, &[(26, 1)]),
    ("folder-of-rename", "a rename with a folder", 3, &[(24, 1)]),
    ("folder-of-remove", "a remove with a folder", 4, &[(25, 1)]),
    ("folder-of-settle", "a settle with a folder", 5, &[(27, 1)]),
    (
        "date-zero",
        "a settle with a date of zeros",
        5,
        &[(28, 0), (29, 0), (30, 0), (31, 0)],
    ),
    ("year-1989", "the year 1989", 4, &[(28, 0xc5), (29, 7)]),
    ("year-2200", "the year 2200", 4, &[(28, 0x98), (29, 8)]),
    ("month-0", "month 0", 3, &[(30, 0)]),
    ("month-13", "month 13", 3, &[(30, 13)]),
    ("day-0", "day 0", 2, &[(31, 0)]),
    ("april-31", "31 April", 2, &[(30, 4), (31, 31)]),
    (
        "not-leap",
        "29 February 2100",
        2,
        &[(28, 0x34), (29, 8), (30, 2), (31, 29)],
    ),
    (
        "label-empty",
        "no label",
        1,
        &[(32, 0), (33, 0), (34, 0), (35, 0)],
    ),
    (
        "label-space-first",
        "a label that begins with a space",
        0,
        &[(32, 32)],
    ),
    (
        "label-space-last",
        "a label that ends with a space",
        1,
        &[(35, 32)],
    ),
    ("label-gap", "a zero byte within a label", 1, &[(33, 0)]),
    (
        "label-tail",
        "a byte behind the zeros of a label",
        1,
        &[(63, 65)],
    ),
    ("label-1f", "the byte 1F in a label", 0, &[(33, 0x1f)]),
    ("label-7f", "the byte 7F in a label", 3, &[(33, 0x7f)]),
    ("label-80", "the byte 80 in a label", 3, &[(33, 0x80)]),
    ("label-of-store", "a store with a label", 2, &[(32, 65)]),
    ("label-of-remove", "a remove with a label", 4, &[(40, 65)]),
    ("label-of-settle", "a settle with a label", 5, &[(63, 65)]),
    ("mark-of-folder", "a make folder with a mark", 0, &[(64, 1)]),
    ("mark-of-rename", "a rename with a mark", 3, &[(79, 1)]),
    ("mark-of-remove", "a remove with a mark", 4, &[(64, 1)]),
    ("mark-of-settle", "a settle with a mark", 5, &[(72, 1)]),
];

/// A folder, a trace and another folder; a move of the trace into that one.
pub fn moving() -> [[u8; 80]; 4] {
    [
        record(0, &[], 1, ROOT, "Bench", 0, 3),
        record(0, &[1], 2, (0, 1), "Gain", 1, 3),
        record(0, &[2], 1, ROOT, "Spare", 0, 3),
        moved(0, &[3], (0, 2), (0, 3), "Gain", 4),
    ]
}

/// What is wrong with a move: the name, what it shows, and the bytes changed.
type WrongMove = (&'static str, &'static str, &'static [(usize, u8)]);

pub const MALFORMED_MOVE: &[WrongMove] = &[
    ("object-root", "a move of the root", &[(22, 0)]),
    (
        "object-number-0",
        "a move of the object 3.0",
        &[(20, 3), (22, 0)],
    ),
    ("object-unit-8", "a move of an object of unit 8", &[(20, 8)]),
    (
        "object-byte",
        "a move, the byte behind its object's unit is 1",
        &[(21, 1)],
    ),
    (
        "object-beyond",
        "a move of an object that it has not seen",
        &[(20, 1)],
    ),
    ("object-itself", "a move names itself as object", &[(22, 4)]),
    (
        "folder-number-0",
        "a move into the folder 3.0",
        &[(24, 3), (26, 0)],
    ),
    (
        "folder-unit-8",
        "a move into a folder of unit 8",
        &[(24, 8)],
    ),
    (
        "folder-byte",
        "a move, the byte behind its folder's unit is 1",
        &[(25, 1)],
    ),
    (
        "root-byte",
        "a move into the root, with a byte behind its unit",
        &[(25, 1), (26, 0)],
    ),
    (
        "folder-beyond",
        "a move into a folder that it has not seen",
        &[(27, 1)],
    ),
    ("folder-itself", "a move names itself as folder", &[(26, 4)]),
    ("date", "a move of 31 April", &[(30, 4), (31, 31)]),
    (
        "label-empty",
        "a move without a label",
        &[(32, 0), (33, 0), (34, 0), (35, 0)],
    ),
    (
        "label-space-last",
        "a move under a label that ends with a space",
        &[(35, 32)],
    ),
    (
        "label-80",
        "a move, the byte 80 in its label",
        &[(33, 0x80)],
    ),
    ("label-tail", "a move, a byte behind its label", &[(63, 65)]),
    ("mark", "a move with a mark", &[(72, 1)]),
];

fn malformed_moves() -> Vec<Case> {
    let file = file_of(&moving(), 7, 0);
    MALFORMED_MOVE
        .iter()
        .map(|(name, shows, changes)| {
            let file = sealed_at(&file, 0, &in_record(3, changes));
            refused(7, 0, &format!("move-{name}"), shows, file)
        })
        .collect()
}

fn malformed() -> Vec<Case> {
    let file = base();
    let mut cases: Vec<Case> = MALFORMED
        .iter()
        .map(|(name, shows, record, changes)| {
            let file = sealed_at(&file, 1, &in_record(*record, changes));
            refused(7, 1, name, shows, file)
        })
        .collect();
    let mut zeros = file;
    zeros[512 + 28 + 160..512 + 28 + 240].fill(0);
    seal(&mut zeros[512..]);
    cases.push(refused(
        7,
        1,
        "zeros",
        "a record of zeros within the count",
        zeros,
    ));
    cases
}

fn ranks() -> Vec<Case> {
    let mut twice = blocks_of_six(2);
    twice[7] = twice[6];
    let mut again = blocks_of_six(2);
    again[9] = again[7];
    let of = |records: &[[u8; 80]]| file_of(records, 7, 0);
    vec![
        refused(20, 1, "rank-equal", "a record twice", of(&twice)),
        refused(
            20,
            1,
            "rank-again",
            "a record again, two places behind itself",
            of(&again),
        ),
        refused(
            20,
            0,
            "rank-lower",
            "a record with the sum 0 behind one with the sum 1; each is good by itself",
            of(&[
                record(0, &[], 2, ROOT, "A", 1, 3),
                record(1, &[1], 2, ROOT, "B", 2, 3),
                record(2, &[], 2, ROOT, "C", 3, 3),
            ]),
        ),
        refused(
            20,
            0,
            "rank-unit",
            "two records with the same sum, the higher unit first",
            of(&[
                record(1, &[], 2, ROOT, "A", 1, 3),
                record(0, &[], 2, ROOT, "B", 2, 3),
            ]),
        ),
    ]
}

fn numbers() -> Vec<Case> {
    let of = |records: &[[u8; 80]]| file_of(records, 7, 0);
    let make = record(0, &[], 2, ROOT, "A", 1, 3);
    let second = |seen: &[u16]| of(&[make, record(1, seen, 2, ROOT, "B", 2, 3)]);
    vec![
        refused(
            8,
            0,
            "number-ahead",
            "a number left out: 0.3 behind 0.1",
            of(&[make, record(0, &[2], 2, ROOT, "B", 2, 3)]),
        ),
        refused(
            8,
            0,
            "number-again",
            "a number used twice: 0.2 behind 0.2, with a higher rank",
            of(&[
                make,
                record(0, &[1], 2, ROOT, "B", 2, 3),
                record(1, &[1], 2, ROOT, "C", 3, 3),
                record(0, &[1, 1], 2, ROOT, "D", 4, 3),
            ]),
        ),
        refused(
            8,
            0,
            "seen-above",
            "a record that has seen one of unit 2, of which there is none",
            second(&[1, 0, 1]),
        ),
        refused(
            8,
            0,
            "seen-huge",
            "a record that has seen 65535 of units 2 to 7",
            second(&[1, 0, 65_535, 65_535, 65_535, 65_535, 65_535, 65_535]),
        ),
        refused(
            8,
            0,
            "seen-wraps",
            "a sum of seen counts that is 0 modulo 65536, behind a sum of 1: 8, since the rank is above",
            of(&[
                make,
                record(0, &[1], 2, ROOT, "B", 2, 3),
                record(1, &[1, 0, 0, 0, 0, 0, 0, 65_535], 2, ROOT, "C", 3, 3),
            ]),
        ),
        refused(
            8,
            0,
            "first-record",
            "the first record of a file is 0.2",
            of(&[record(0, &[1], 2, ROOT, "A", 1, 3)]),
        ),
    ]
}

/// 1.1 has seen 0.1; 2.1 says that it has seen 1.1 and not 0.1.
fn open_seen() -> [[u8; 80]; 3] {
    [
        record(0, &[], 2, ROOT, "A", 1, 3),
        record(1, &[1], 2, ROOT, "B", 2, 3),
        record(2, &[0, 1], 2, ROOT, "C", 3, 3),
    ]
}

fn unclosed() -> Vec<Case> {
    let file = base();
    vec![
        refused(
            9,
            0,
            "unclosed",
            "2.1 has seen 1.1, but not 0.1, which 1.1 has seen",
            file_of(&open_seen(), 7, 0),
        ),
        refused(
            9,
            1,
            "unclosed-by-one",
            "the last record has seen a remove, but not the last record that the remove has seen",
            sealed_at(&file, 1, &in_record(5, &[(4, 7)])),
        ),
        refused(
            9,
            1,
            "two-blocks",
            "the worked example of docs/FORMAT.md: 2.2 has seen 0.5, but not 1.2, which 0.5 has seen",
            file_of(&not_closed(), 305_419_896, 2),
        ),
    ]
}

/// A file whose blocks all have a vector with one count changed.
fn counted(file: &[u8], at: usize, count: u8) -> Vec<u8> {
    let mut file = file.to_vec();
    for block in file.chunks_mut(BLOCK) {
        block[at] = count;
        seal(block);
    }
    file
}

fn counts() -> Vec<Case> {
    vec![
        refused(
            20,
            1,
            "counts-above",
            "the vector counts one record more of unit 0 than there are",
            counted(&base(), 12, 9),
        ),
        refused(
            20,
            1,
            "counts-below",
            "the vector counts no record of unit 2",
            counted(&base(), 16, 0),
        ),
        refused(
            20,
            0,
            "counts-of-none",
            "no records, and a vector that counts one",
            counted(&file_of(&[], 7, 0), 26, 1),
        ),
    ]
}

/// Two faults: the first in the order of the checks is told.
fn two_faults() -> Vec<Case> {
    let file = base();
    let mut not_next = blocks_of_six(2);
    not_next[7] = not_next[5];
    let mut rank_and_form = blocks_of_six(2);
    rank_and_form[7] = rank_and_form[5];
    rank_and_form[7][31] = 0;
    let open = open_seen();
    let next_and_open = [open[0], open[1], record(2, &[0, 1, 1], 2, ROOT, "C", 3, 3)];
    let mut later_form = vec![open[0], open[1], open[2]];
    later_form.push([0; 80]);
    let of = |records: &[[u8; 80]]| file_of(records, 7, 0);
    vec![
        refused(
            3,
            0,
            "before-4",
            "other letters and wrong sums: 3",
            changed(&file, &[(0, b'T')]),
        ),
        refused(
            4,
            1,
            "before-5",
            "a wrong sum and a count of 7: 4",
            changed(&file, &[(512 + 9, 7)]),
        ),
        refused(
            5,
            1,
            "before-20",
            "a count of 7 and another archive: 5",
            sealed_at(&file, 1, &[(9, 7), (4, 8)]),
        ),
        refused(
            20,
            0,
            "before-next-block",
            "a short first block and a second with other letters: 20 at 0",
            {
                let mut file = sealed_at(&file, 1, &[(0, b'T')]);
                file[9] = 5;
                file[28 + 400..508].fill(0);
                seal(&mut file[..BLOCK]);
                file
            },
        ),
        refused(
            20,
            1,
            "before-7",
            "a malformed record in the first block and another place in the second: 20 at 1, since all \
             blocks come before the records",
            sealed_at(
                &sealed_at(&file, 0, &in_record(0, &[(31, 0)])),
                1,
                &[(10, 2)],
            ),
        ),
        refused(
            7,
            1,
            "before-20-rank",
            "a record that is malformed and ranks below the one before it: 7",
            of(&rank_and_form),
        ),
        refused(
            20,
            1,
            "rank-before-8",
            "a record that ranks below the one before it and whose number is not next: 20",
            of(&not_next),
        ),
        refused(
            8,
            0,
            "before-9",
            "a record whose number is not next and whose seen is not closed: 8",
            of(&next_and_open),
        ),
        refused(
            9,
            0,
            "before-counts",
            "seen that is not closed and a vector that is not the counts: 9",
            counted(&of(&open), 26, 1),
        ),
        refused(
            9,
            0,
            "before-next-record",
            "a record whose seen is not closed and a malformed one behind it: 9",
            of(&later_form),
        ),
    ]
}
