//! SAB2 files, good and refused.

use crate::kit::{Case, changed, good, refused, sealed_at};
use make_vectors::chain::{Fields, Wished, blocks_of_six, chain, file_of};
use make_vectors::examples::{ROOT, folded, paper, record};
use make_vectors::sab2::{Sab2, rows_of};
use plain::{ASIDE_ROW, BASE, BLOCK, EMPTY_BASE, ENTRY_ROW, LOG};

const ENTRIES: usize = 24;
const ASIDES: usize = ENTRIES + 512 * ENTRY_ROW;

/// A base in the making.
struct Base(Vec<u8>);

impl Base {
    /// Of a list and a vector that begins so.
    fn of(list: u8, vector: &[u16]) -> Base {
        let mut bytes = vec![0; BASE];
        bytes[0] = list;
        for (unit, count) in vector.iter().enumerate() {
            bytes[8 + 2 * unit..10 + 2 * unit].copy_from_slice(&count.to_le_bytes());
        }
        Base(bytes)
    }

    fn count(&mut self, at: usize) -> usize {
        let count = u16::from_le_bytes([self.0[at], self.0[at + 1]]);
        self.0[at..at + 2].copy_from_slice(&(count + 1).to_le_bytes());
        count.into()
    }

    /// One more entry: kind, identity, folder, label; itself the last record.
    fn entry(mut self, kind: u8, identity: (u8, u16), folder: (u8, u16), label: &str) -> Base {
        let at = ENTRIES + ENTRY_ROW * self.count(2);
        let row = &mut self.0[at..at + ENTRY_ROW];
        row[0] = kind;
        put_identity(&mut row[4..8], identity);
        put_identity(&mut row[8..12], folder);
        put_identity(&mut row[12..16], identity);
        put_identity(&mut row[16..20], identity);
        row[20..24].copy_from_slice(&[0xe9, 7, 3, 3]);
        row[24..24 + label.len()].copy_from_slice(label.as_bytes());
        if kind == 2 {
            row[56..].fill(0x11);
        }
        self
    }

    /// One more aside that is open: identity, reason, marked entry.
    fn aside(mut self, identity: (u8, u16), reason: u8, marks: (u8, u16)) -> Base {
        let at = ASIDES + ASIDE_ROW * self.count(4);
        let row = &mut self.0[at..at + ASIDE_ROW];
        put_identity(&mut row[..4], identity);
        row[4..6].copy_from_slice(&[reason, 1]);
        put_identity(&mut row[8..], marks);
        self
    }

    /// The file of it and of some records, of archive 7 and unit 0.
    fn with(&self, records: &[[u8; 80]]) -> Sab2 {
        let mut log = records.as_flattened().to_vec();
        log.resize(LOG, 0);
        Sab2::of(&log, &self.0, 7, 0)
    }
}

fn put_identity(bytes: &mut [u8], (unit, number): (u8, u16)) {
    bytes[0] = unit;
    bytes[2..4].copy_from_slice(&number.to_le_bytes());
}

/// The file with a base of docs/FORMAT.md.
fn worked() -> Sab2 {
    let (mut log, mut base) = (vec![0; LOG], EMPTY_BASE.to_vec());
    let file = file_of(&folded(), 7, 0);
    plain::read_file(&mut log, &mut base, &file).expect("a good file");
    assert_eq!(plain::fold(&mut log, &mut base, 7, 0, 3), Ok(5));
    Sab2::of(&log, &base, 7, 0)
}

/// Folder 0.1 with the trace 0.2 and the folder 1.1 in it, and asides 1.2 and 0.3.
fn small() -> Base {
    Base::of(7, &[3, 2, 1])
        .entry(1, (0, 1), ROOT, "Bench")
        .entry(2, (0, 2), (0, 1), "Gain")
        .entry(1, (1, 1), (0, 1), "Old")
        .aside((1, 2), 15, (0, 2))
        .aside((0, 3), 12, ROOT)
}

/// Two records behind the small base: 0.4 and 2.2.
fn behind() -> [[u8; 80]; 2] {
    [
        record(0, &[3, 2, 1], 5, (0, 2), "Gain 2", 0, 5),
        record(2, &[4, 2, 1], 6, (1, 2), "", 0, 6),
    ]
}

fn entries(count: u16) -> Base {
    let base = Base::of(1, &[count]);
    (1..=count).fold(base, |base, number| {
        base.entry(1, (0, number), ROOT, &number.to_string())
    })
}

fn asides(count: u16) -> Base {
    let base = Base::of(1, &[count]);
    (1..=count).fold(base, |base, number| base.aside((0, number), 12, ROOT))
}

pub fn all_good() -> Vec<Case> {
    let mut other_order = small();
    let (first, second) = (ENTRIES + ENTRY_ROW, ENTRIES + 2 * ENTRY_ROW);
    let row = other_order.0[first..second].to_vec();
    other_order.0.copy_within(second..second + ENTRY_ROW, first);
    other_order.0[second..second + ENTRY_ROW].copy_from_slice(&row);
    let mut settled = small();
    settled.0[ASIDES + 5] = 2;
    let mut other_unit = small().with(&behind());
    other_unit.unit = 6;
    let gone = Base::of(1, &[2]).aside((0, 2), 17, (0, 1));
    let empty = Base::of(255, &[]);
    let none = Base::of(0, &[]);
    let short = Base::of(3, &[]);
    vec![
        good(
            "sab2-empty",
            "nothing folded, no records, all listed: a head alone",
            empty.with(&[]).file(),
        ),
        good(
            "sab2-none-listed",
            "the same, and no unit is listed",
            none.with(&[]).file(),
        ),
        good(
            "sab2-paper",
            "the worked example of docs/FORMAT.md, converted",
            empty.with(&paper()).file(),
        ),
        good(
            "sab2-short-list",
            "the same with units 0 and 1 listed: the same listing",
            short.with(&paper()).file(),
        ),
        good(
            "sab2-folded",
            "the file with a base of docs/FORMAT.md",
            worked().file(),
        ),
        good(
            "sab2-no-records",
            "a base and no records: the file ends with the rows",
            small().with(&[]).file(),
        ),
        good(
            "sab2-records",
            "records behind a base: a folded trace renamed, a folded aside settled",
            small().with(&behind()).file(),
        ),
        good(
            "sab2-settled",
            "an aside that was settled before it was folded marks no dispute",
            settled.with(&[]).file(),
        ),
        good(
            "sab2-gone",
            "an aside marks an entry that is not there",
            gone.with(&[]).file(),
        ),
        good(
            "sab2-order",
            "the rows of a base in another order: the listing has it",
            other_order.with(&[]).file(),
        ),
        good(
            "sab2-unit",
            "written by unit 6, which is not listed and has no record",
            other_unit.file(),
        ),
        good("sab2-unseen", "3.1 has seen nothing of what is folded", {
            let mut base = small();
            base.0[0] = 15;
            base.with(&[record(3, &[], 1, ROOT, "Apart", 0, 5)]).file()
        }),
        good(
            "sab2-five-entries",
            "six rows: a full block, and no other",
            entries(5).with(&[]).file(),
        ),
        good(
            "sab2-six-entries",
            "seven rows: the second block has one",
            entries(6).with(&[]).file(),
        ),
        good(
            "sab2-six-asides",
            "six asides in one row",
            asides(6).with(&[]).file(),
        ),
        good(
            "sab2-seven-asides",
            "the seventh aside has a row of its own",
            asides(7).with(&[]).file(),
        ),
        good(
            "sab2-longest",
            "186 blocks: 512 entries, 512 asides and 512 records",
            longest().file(),
        ),
    ]
}

/// The longest file, and nearly the longest listing: five digits in every number,
/// labels of quotes and backslashes.
fn longest() -> Sab2 {
    let label = |i: u16| -> String {
        let byte = |bit: u16| {
            if i.checked_shr(bit.into()).unwrap_or(0) & 1 == 0 {
                '"'
            } else {
                '\\'
            }
        };
        (0..32).map(byte).collect()
    };
    let folder = (7, 64_512);
    let mut base =
        Base::of(255, &[0, 0, 0, 0, 0, 0, 65_535, 65_023]).entry(1, folder, ROOT, &label(0));
    for i in 1..512 {
        base = base.entry(2, (7, 64_512 + i), folder, &label(i));
    }
    for i in 0..512 {
        base = base.aside((6, 65_535 - 511 + i), 15, (7, 64_512 + i));
    }
    let records: Vec<[u8; 80]> = (0..512)
        .map(|i| {
            Fields {
                unit: 7,
                operation: 2,
                seen: &[0, 0, 0, 0, 0, 0, 65_535, 65_023 + i],
                named: folder,
                date: (2199, 12, 31),
                label: &label(512 + i),
                mark: 0xff,
            }
            .record()
        })
        .collect();
    Sab2 {
        archive: u32::MAX,
        unit: 7,
        ..base.with(&records)
    }
}

pub fn all_refused() -> Vec<Case> {
    [
        lengths(),
        blocks(),
        counts(),
        rows(),
        names(),
        trees(),
        records(),
        orders(),
    ]
    .concat()
}

/// Two blocks of rows, for eight entries and an aside of unit 0, and two of records,
/// of unit 1.
fn four_blocks() -> Sab2 {
    let base = (1..=8).fold(Base::of(3, &[9]), |base, number| {
        base.entry(1, (0, number), ROOT, &number.to_string())
    });
    let wishes: Vec<[u8; 80]> = (0..8)
        .map(|i| record(1, &[9, i], 1, ROOT, &format!("of 1: {i}"), 0, 5))
        .collect();
    base.aside((0, 9), 12, ROOT).with(&wishes)
}

fn lengths() -> Vec<Case> {
    let file = four_blocks().file();
    let case = |name, shows, file| refused(2, 0, name, shows, file);
    vec![
        case(
            "sab2-letters-alone",
            "the letters SAB2 and nothing else",
            b"SAB2".to_vec(),
        ),
        case(
            "sab2-one-short",
            "an SAB2 file without its last byte",
            file[..file.len() - 1].to_vec(),
        ),
        case(
            "sab2-one-over",
            "a byte behind an SAB2 file",
            [&file[..], &[0]].concat(),
        ),
        case(
            "sab2-187-blocks",
            "187 blocks that begin with SAB2",
            file[..BLOCK].repeat(187),
        ),
        refused(
            20,
            1,
            "sab2-186-blocks",
            "186 such blocks are not too many: the second has the place of the first",
            file[..BLOCK].repeat(186),
        ),
        case(
            "sab3-187-blocks",
            "187 blocks that begin with SAB3: checked as SAB1",
            { changed(&file[..BLOCK], &[(3, b'3')]).repeat(187) },
        ),
        refused(
            3,
            0,
            "sab3",
            "the first block begins with SAB3: checked as SAB1",
            { sealed_at(&file, 0, &[(3, b'3')]) },
        ),
        refused(
            3,
            1,
            "sab1-then-sab2",
            "an SAB1 file whose second block begins with SAB2",
            {
                let file = file_of(&blocks_of_six(2), 7, 0);
                sealed_at(&file, 1, &[(3, b'2')])
            },
        ),
        refused(
            4,
            0,
            "sab1-as-sab2",
            "an SAB1 file with a 2 in its first letters: its sum is wrong",
            { changed(&file_of(&paper(), 7, 0), &[(3, b'2')]) },
        ),
        refused(
            20,
            0,
            "sab1-sealed-as-sab2",
            "the same with right sums: the head says other rows",
            { sealed_at(&file_of(&paper(), 7, 0), 0, &[(3, b'2')]) },
        ),
    ]
}

fn blocks() -> Vec<Case> {
    let file = four_blocks().file();
    let mut cases = Vec::new();
    for (place, what) in [
        (0, "first-rows"),
        (1, "last-rows"),
        (2, "first-records"),
        (3, "last-records"),
    ] {
        let mut case = |number: u8, name: &str, shows: &str, changes: &[(usize, u8)]| {
            let file = sealed_at(&file, place, changes);
            let shows = format!("{shows}, in block {place}");
            cases.push(refused(
                number,
                place,
                &format!("sab2-{name}-{what}"),
                &shows,
                file,
            ));
        };
        case(5, "unit-8", "unit 8", &[(8, 8)]);
        case(5, "count-7", "a count of 7", &[(9, 7)]);
        case(20, "place", "another place", &[(10, 9)]);
        case(20, "place-high", "a place above 255", &[(11, 1)]);
        if place > 0 {
            case(3, "letters", "the letters SAB1", &[(3, b'1')]);
            case(20, "unit", "another unit", &[(8, 1)]);
            case(20, "archive", "another archive", &[(4, 8)]);
            case(20, "vector", "another vector", &[(26, 1)]);
        }
        if place % 2 == 1 {
            case(5, "unused", "a byte behind the used places", &[(507, 1)]);
        }
        let at = BLOCK * place + 300;
        let damaged = changed(&file, &[(at, file[at] ^ 4)]);
        let shows = format!("a changed byte, in block {place}");
        cases.push(refused(
            4,
            place,
            &format!("sab2-sum-{what}"),
            &shows,
            damaged,
        ));
    }
    cases
}

/// What the head says of rows against what the blocks hold.
fn counts() -> Vec<Case> {
    let state = four_blocks();
    let file = state.file();
    let said = |name: &str, place: usize, shows: &str, changes: &[(usize, u8)]| {
        let file = state.clone().with_row(0, changes).file();
        refused(20, place, &format!("sab2-{name}"), shows, file)
    };
    let mut empty = state.clone();
    empty.records.clear();
    let mut behind = empty.file();
    behind.extend(state.block(2, &[]));
    let mut between = state.clone();
    let last = between.records.split_off(6);
    let mut short = between.file();
    short.extend(state.block(3, &last[..1]));
    short.extend(state.block(4, &last[1..]));
    vec![
        said(
            "more-rows",
            1,
            "the head says one entry more than there is",
            &[(2, 9)],
        ),
        said("fewer-rows", 1, "the head says one entry less", &[(2, 7)]),
        said(
            "more-asides",
            1,
            "the head says asides for a second row",
            &[(4, 7)],
        ),
        said("no-aside", 1, "the head says no aside", &[(4, 0)]),
        said(
            "most-rows",
            1,
            "the head says 65535 entries",
            &[(2, 255), (3, 255)],
        ),
        said(
            "one-block-of-rows",
            0,
            "the head says rows for less than a block",
            &[(2, 1)],
        ),
        refused(
            20,
            0,
            "sab2-ends-in-rows",
            "the file ends before its rows do",
            file[..BLOCK].to_vec(),
        ),
        refused(
            20,
            1,
            "sab2-ends-with-rows",
            "the file ends with its rows, and the vector counts records",
            { file[..2 * BLOCK].to_vec() },
        ),
        refused(
            20,
            2,
            "sab2-empty-block",
            "a block of count 0 behind the rows",
            behind,
        ),
        refused(
            20,
            3,
            "sab2-short-block",
            "a short block of records that is not the last",
            short,
        ),
        refused(20, 0, "sab2-no-row", "a first block of count 0", {
            state.block(0, &[]).to_vec()
        }),
    ]
}

/// 31 for the layout of rows.
fn rows() -> Vec<Case> {
    let state = small().with(&behind());
    let case = |name: &str, shows: &str, row: usize, changes: &[(usize, u8)]| {
        let file = state.clone().with_row(row, changes).file();
        refused(31, 0, &format!("sab2-{name}"), shows, file)
    };
    // Head, three entries, a row of two asides.
    let (head, folder, trace, asides) = (0, 1, 2, 4);
    let many = |at: usize, rows: usize| {
        let mut many = Base::of(255, &[]).with(&[]);
        many.rows.extend(vec![[0; 80]; rows]);
        many.rows[0][at..at + 2].copy_from_slice(&513u16.to_le_bytes());
        many.file()
    };
    vec![
        refused(
            31,
            0,
            "sab2-513-entries",
            "513 entries, and rows for them",
            many(2, 513),
        ),
        refused(
            31,
            0,
            "sab2-513-asides",
            "513 asides, and rows for them",
            many(4, 86),
        ),
        case("head-1", "a byte behind the list", head, &[(1, 1)]),
        case("head-6", "a byte behind the counts", head, &[(7, 1)]),
        case("head-behind", "a byte behind the head", head, &[(24, 1)]),
        case(
            "head-last",
            "the last byte of the head's row",
            head,
            &[(79, 1)],
        ),
        case("entry-behind", "a byte behind an entry", trace, &[(72, 1)]),
        case(
            "aside-behind",
            "a byte behind the last aside",
            asides,
            &[(24, 1)],
        ),
        case(
            "asides-last",
            "the last byte of a row of asides",
            asides,
            &[(79, 1)],
        ),
        case(
            "unlisted",
            "unit 2 has a folded record and is not listed",
            head,
            &[(0, 3)],
        ),
        case("kind-0", "an entry of kind 0", folder, &[(0, 0)]),
        case("kind-3", "an entry of kind 3", trace, &[(0, 3)]),
        case(
            "disputed",
            "an entry with the flag of a dispute",
            trace,
            &[(1, 1)],
        ),
        case("date", "30 February", folder, &[(22, 2), (23, 30)]),
        case(
            "label-space",
            "a label that begins with a space",
            folder,
            &[(24, b' ')],
        ),
        case(
            "label-none",
            "an entry without a label",
            trace,
            &[(24, 0), (25, 0), (26, 0), (27, 0)],
        ),
        case("label-behind", "a byte behind a label", trace, &[(55, 1)]),
        case("folder-mark", "a folder with a mark", folder, &[(71, 1)]),
        case("reason-11", "an aside of reason 11", asides, &[(4, 11)]),
        case("reason-19", "an aside of reason 19", asides, &[(4, 19)]),
        case(
            "state-0",
            "an aside that is neither open nor settled",
            asides,
            &[(5, 0)],
        ),
        case("state-3", "an aside of state 3", asides, &[(17, 3)]),
        case(
            "aside-zero",
            "a byte behind the state of an aside",
            asides,
            &[(7, 1)],
        ),
    ]
}

/// 31 for identities that are none, or not folded.
fn names() -> Vec<Case> {
    let state = small().with(&behind());
    let mut cases = Vec::new();
    let fields = [
        (2, 4, "identity"),
        (2, 8, "folder"),
        (2, 12, "contents"),
        (2, 16, "placing"),
        (4, 0, "aside"),
        (4, 8, "marked"),
    ];
    for (row, at, what) in fields {
        let mut case = |name: &str, shows: &str, identity: [u8; 4]| {
            let changes: Vec<(usize, u8)> = (0..4).map(|i| (at + i, identity[i])).collect();
            let file = state.clone().with_row(row, &changes).file();
            let shows = format!("{what}: {shows}");
            cases.push(refused(31, 0, &format!("sab2-{what}-{name}"), &shows, file));
        };
        case(
            "above",
            "0.4, where three of unit 0 are folded",
            [0, 0, 4, 0],
        );
        case("unit-8", "of unit 8", [8, 0, 1, 0]);
        case("number-0", "of number 0", [1, 0, 0, 0]);
        case("byte", "a byte behind its unit", [0, 1, 1, 0]);
        if what != "folder" && what != "marked" {
            case("none", "all zero", [0; 4]);
        }
    }
    cases
}

/// 31 for entries and asides that do not go together.
fn trees() -> Vec<Case> {
    let case = |name: &str, shows: &str, base: Base| {
        let state = Sab2 {
            rows: rows_of(&base.0),
            vector: [5, 2, 1, 0, 0, 0, 0, 0],
            ..small().with(&[])
        };
        refused(31, 0, &format!("sab2-{name}"), shows, state.file())
    };
    let with = || {
        let mut base = small();
        base.0[8] = 5;
        base
    };
    vec![
        case(
            "entry-twice",
            "an entry twice",
            with().entry(1, (0, 1), ROOT, "Other"),
        ),
        case(
            "entry-and-aside",
            "an entry that is an aside too",
            with().aside((0, 2), 12, ROOT),
        ),
        case(
            "aside-twice",
            "an aside twice",
            with().aside((1, 2), 12, ROOT),
        ),
        case(
            "label-twice",
            "a label twice in a folder",
            with().entry(1, (0, 4), (0, 1), "Gain"),
        ),
        case(
            "label-case",
            "a label twice in a folder, in another case",
            with().entry(1, (0, 4), (0, 1), "gAIN"),
        ),
        case(
            "in-a-trace",
            "an entry in a trace",
            with().entry(1, (0, 4), (0, 2), "In"),
        ),
        case(
            "in-nothing",
            "an entry in a folder that is not there",
            with().entry(1, (0, 4), (0, 5), "In"),
        ),
        case(
            "in-an-aside",
            "an entry in an aside",
            with().entry(1, (0, 4), (1, 2), "In"),
        ),
        case(
            "in-itself",
            "a folder in itself",
            with().entry(1, (0, 4), (0, 4), "In"),
        ),
        case(
            "in-each-other",
            "two folders in each other",
            with()
                .entry(1, (0, 4), (0, 5), "A")
                .entry(1, (0, 5), (0, 4), "B"),
        ),
    ]
}

/// Records behind a base.
fn records() -> Vec<Case> {
    let state = four_blocks();
    let case =
        |number: u8, place: usize, name: &str, shows: &str, i: usize, changes: &[(usize, u8)]| {
            let file = state.clone().with_record(i, changes).file();
            refused(number, place, &format!("sab2-{name}"), shows, file)
        };
    let mut low = state.clone();
    low.vector = [0, 8, 0, 0, 0, 0, 0, 0];
    let mut first_listed = state.clone();
    first_listed.rows[0][0] = 1;
    let wishes: Vec<Wished> = (0..513)
        .map(|i| Wished {
            unit: (i % 2) as u8,
            operation: 1,
            named: None,
            label: i.to_string(),
            mark: 0,
        })
        .collect();
    let mut full = Base::of(255, &[]).with(&[]);
    full.records = chain(&wishes);
    full.vector = [257, 256, 0, 0, 0, 0, 0, 0];
    let apart = record(1, &[9, 0, 0, 0, 0, 0, 0, 0], 1, ROOT, "x", 0, 5);
    let mut unclosed = state.clone();
    // 2.1 has seen 1.2, and not the folded records that 1.2 saw.
    unclosed.records.truncate(2);
    unclosed
        .records
        .push(record(2, &[8, 2], 1, ROOT, "y", 0, 5));
    unclosed.rows[0][0] = 7;
    unclosed.vector = [9, 2, 1, 0, 0, 0, 0, 0];
    let mut skipped = unclosed.clone();
    skipped.records.truncate(1);
    skipped.records[0] = record(1, &[9, 1], 1, ROOT, "x", 0, 5);
    skipped.vector = [9, 1, 0, 0, 0, 0, 0, 0];
    let mut again = state.clone();
    again.records[1] = apart;
    vec![
        case(
            7,
            2,
            "malformed",
            "a malformed record in the first block of records",
            0,
            &[(1, 8)],
        ),
        case(
            7,
            3,
            "malformed-last",
            "a malformed record in the last block",
            7,
            &[(31, 0)],
        ),
        refused(
            26,
            2,
            "sab2-unlisted-record",
            "records of unit 1, which is not listed",
            first_listed.file(),
        ),
        refused(
            20,
            2,
            "sab2-rank",
            "a record does not rank above the one before",
            again.file(),
        ),
        refused(
            8,
            2,
            "sab2-number",
            "the first record of unit 1 is 1.2",
            skipped.file(),
        ),
        case(
            8,
            3,
            "seen-above",
            "a record that has seen 0.10, where nine are folded",
            6,
            &[(4, 10)],
        ),
        refused(
            9,
            2,
            "sab2-unclosed",
            "2.1 has seen 1.2, and not all that 1.2 saw",
            unclosed.file(),
        ),
        refused(
            11,
            86,
            "sab2-513-records",
            "a 513th record, in block 86",
            full.file(),
        ),
        refused(
            20,
            3,
            "sab2-vector",
            "the vector counts the records without those folded",
            low.file(),
        ),
    ]
}

/// Which of two faults is told.
fn orders() -> Vec<Case> {
    let state = four_blocks();
    let bad_base = || state.clone().with_row(0, &[(1, 1)]);
    let mut both = bad_base().with_record(0, &[(1, 8)]);
    let mut cases = vec![refused(
        31,
        0,
        "sab2-base-before-records",
        "a base that is not sound and a malformed record: 31",
        both.file(),
    )];
    both.vector[7] = 1;
    cases.push(refused(
        31,
        0,
        "sab2-base-before-vector",
        "the same and a vector that is not the counts: 31",
        both.file(),
    ));
    let sum = bad_base().file();
    let at = 3 * BLOCK + 400;
    cases.push(refused(
        4,
        3,
        "sab2-blocks-before-base",
        "a base that is not sound and a wrong sum in the last block: 4",
        changed(&sum, &[(at, sum[at] ^ 1)]),
    ));
    let mut unlisted = state.clone().with_record(0, &[(1, 8)]);
    unlisted.rows[0][0] = 1;
    cases.push(refused(
        7,
        2,
        "sab2-form-before-unlisted",
        "a malformed record of a unit that is not listed: 7",
        unlisted.file(),
    ));
    let mut rank = state.clone();
    rank.rows[0][0] = 1;
    rank.records[0] = record(1, &[9, 0], 1, ROOT, "x", 0, 5);
    cases.push(refused(
        26,
        2,
        "sab2-unlisted-before-number",
        "a unit that is not listed, and a wrong number behind it: 26",
        {
            rank.records[1] = record(1, &[9, 5], 1, ROOT, "x", 0, 5);
            rank.file()
        },
    ));
    cases
}
