//! Readout cases: good files, and one for each refusal and cause at a first, a
//! middle and a last block.

use crate::chain::{Wished, blocks_of_six, chain, file_of, seal};
use crate::examples;
use crate::sab2::Sab2;
use plain::{BLOCK, SAB2_FILE};
use workload::{Chance, Mix, Units, log_of};

pub struct Case {
    pub name: String,
    pub file: Vec<u8>,
}

/// What the plain implementation prints.
pub fn listing(file: &[u8]) -> Vec<u8> {
    let mut out = vec![0; plain::LISTING];
    let len = plain::listing(file, out.first_chunk_mut().expect("its length"));
    out.truncate(len);
    out
}

pub fn all() -> Vec<Case> {
    let mut cases = good();
    cases.extend(wrong_lengths());
    for place in 0..3 {
        cases.extend(wrong_blocks(place));
        cases.extend(wrong_records(place));
    }
    cases.extend(wrong_wholes());
    cases.extend(sab2());
    cases
}

const WHERE: [&str; 3] = ["first", "middle", "last"];

/// A case that must be refused with a number at a place.
fn refused(number: u8, place: usize, name: &str, file: Vec<u8>) -> Case {
    let name = format!("n{number:02}-{name}");
    let expected = format!("refused {number} at {place}\n");
    let came = String::from_utf8_lossy(&listing(&file)).to_string();
    assert_eq!(came, expected, "{name}");
    Case { name, file }
}

fn good() -> Vec<Case> {
    let good = |name: &str, file: Vec<u8>| {
        assert!(listing(&file).starts_with(b"archive "), "{name}");
        Case {
            name: format!("good-{name}"),
            file,
        }
    };
    let records_of = |log: Vec<u8>| {
        let (records, _) = log.as_chunks::<80>();
        records
            .iter()
            .copied()
            .take_while(|record| record[2..4] != [0, 0])
            .collect::<Vec<_>>()
    };
    let mut cases = vec![
        good("example", file_of(&examples::paper(), 7, 0)),
        good("empty", file_of(&[], 4_294_967_295, 7)),
        good("three-blocks", file_of(&blocks_of_six(3), 0, 3)),
        good("settles", file_of(&settles(), 1, 1)),
        good("removed-marked", file_of(&removed_marked(), 1, 1)),
        good("longest", file_of(&longest(), 4_294_967_295, 7)),
        good(
            "full",
            file_of(&records_of(log_of(512, 8, 4, &Mix::CONFLICTS, 31)), 9, 2),
        ),
    ];
    let log = log_of(80, 4, 3, &Mix::CASES, 37);
    cases.push(good("cases", file_of(&records_of(log), 5, 4)));
    let log = log_of(120, 4, 5, &Mix::MOVES, 38);
    cases.push(good("moves", file_of(&records_of(log), 5, 4)));
    for (records, seed) in [(1, 32), (6, 33), (7, 34), (40, 35), (60, 36)] {
        let log = log_of(records, 4, 3, &Mix::CONFLICTS, seed);
        cases.push(good(
            &format!("{records}-records"),
            file_of(&records_of(log), 5, 4),
        ));
    }
    cases
}

fn wished(unit: u8, operation: u8, named: Option<usize>, label: &str, mark: u8) -> Wished {
    Wished {
        unit,
        operation,
        named,
        label: label.to_string(),
        mark,
    }
}

/// An aside settled twice, a settle that stands aside, and its settle; last a
/// rename to the own label, which fits.
fn settles() -> Vec<[u8; 80]> {
    chain(&[
        wished(0, 1, None, "\\\"\\\"", 0),
        wished(1, 1, None, "\\\"\\\"", 0),
        wished(0, 6, Some(1), "", 0),
        wished(1, 6, Some(1), "", 0),
        wished(2, 6, Some(0), "", 0),
        wished(2, 6, Some(4), "", 0),
        wished(3, 6, Some(2), "", 0),
        wished(3, 5, Some(0), "\\\"\\\"", 0),
    ])
}

/// An entry that an aside marks and that was removed afterwards.
fn removed_marked() -> Vec<[u8; 80]> {
    chain(&[
        wished(0, 2, None, "A", 1),
        wished(1, 2, None, "A", 2),
        wished(0, 4, Some(0), "", 0),
        wished(1, 3, Some(0), "", 3),
        wished(1, 2, None, "A", 4),
    ])
}

/// The longest listing that 512 records give: traces with labels of quotes and
/// backslashes, in the folder of the longest number that is there by then.
fn longest() -> Vec<[u8; 80]> {
    let label = |i: usize| -> String {
        let byte = |bit: usize| if (i >> bit) & 1 == 0 { '"' } else { '\\' };
        (0..32).map(byte).collect()
    };
    let wishes: Vec<Wished> = (0..512)
        .map(|i| {
            let operation = if i == 9 || i == 99 { 1 } else { 2 };
            let folder = [99, 9].into_iter().find(|folder| *folder < i);
            let mark = if operation == 2 { 0xff } else { 0 };
            wished(7, operation, folder, &label(i), mark)
        })
        .collect();
    chain(&wishes)
}

fn wrong_lengths() -> Vec<Case> {
    let file = file_of(&blocks_of_six(1), 7, 0);
    let mut long = file.clone();
    long.push(0);
    vec![
        refused(2, 0, "none", Vec::new()),
        refused(2, 0, "one-byte", vec![b'S']),
        refused(2, 0, "one-short", file[..BLOCK - 1].to_vec()),
        refused(2, 0, "one-over", long),
        refused(2, 0, "87-blocks", file.repeat(87)),
    ]
}

/// A good file of three blocks with one changed; its sums are put right.
fn changed(place: usize, change: impl FnOnce(&mut [u8])) -> Vec<u8> {
    let mut file = file_of(&blocks_of_six(3), 7, 0);
    let block = &mut file[BLOCK * place..BLOCK * (place + 1)];
    change(block);
    seal(block);
    file
}

fn wrong_blocks(place: usize) -> Vec<Case> {
    let case = |number: u8, name: &str, change: fn(&mut [u8])| {
        refused(
            number,
            place,
            &format!("{name}-{}", WHERE[place]),
            changed(place, change),
        )
    };
    let unsealed = |name: &str, at: usize| {
        let mut file = changed(place, |_| ());
        file[BLOCK * place + at] ^= 0x10;
        refused(4, place, &format!("{name}-{}", WHERE[place]), file)
    };
    let mut cases = vec![
        case(3, "letters", |block| block[3] = b'3'),
        unsealed("header", 10),
        unsealed("body", 200),
        unsealed("first-sum", 508),
        unsealed("second-sum", 511),
        case(5, "unit", |block| block[8] = 8),
        case(5, "count", |block| block[9] = 7),
        case(5, "unused", |block| block[9] = 5),
        case(20, "place", |block| block[10] ^= 1),
    ];
    if place > 0 {
        cases.push(case(20, "unit", |block| block[8] = 1));
        cases.push(case(20, "archive", |block| block[7] = 1));
        cases.push(case(20, "vector", |block| block[12] ^= 1));
    }
    if place < 2 {
        cases.push(case(20, "short", |block| {
            block[9] = 5;
            block[28 + 400..508].fill(0);
        }));
    }
    cases.push(case(20, "count-zero", |block| {
        block[9] = 0;
        block[28..508].fill(0);
    }));
    cases
}

/// The record of an operation in a block of six: make folder, make trace,
/// store, rename, remove, settle.
fn record_of(block: &mut [u8], i: usize) -> &mut [u8] {
    &mut block[28 + 80 * i..28 + 80 * (i + 1)]
}

type Change = fn(&mut [u8]);

/// Malformed in one way: the record of a block, and the change.
const MALFORMED: [(&str, usize, Change); 30] = [
    ("unit-8", 0, |record| record[0] = 8),
    ("operation-0", 0, |record| record[1] = 0),
    ("operation-8", 5, |record| record[1] = 8),
    ("all-zero", 2, |record| record.fill(0)),
    ("number-0", 1, |record| {
        record[2..4].fill(0);
        record[4..6].fill(0xff);
    }),
    ("own-seen", 1, |record| record[4] += 1),
    ("object-beyond", 2, |record| record[22] = 0xee),
    ("object-root", 3, |record| record[20..24].fill(0)),
    ("object-unit-8", 4, |record| record[20] = 8),
    ("object-of-make", 0, |record| record[22] = 1),
    ("byte-21", 3, |record| record[21] = 1),
    ("folder-beyond", 1, |record| record[26] = 0xee),
    ("folder-3-0", 0, |record| record[24] = 3),
    ("folder-unit-8", 1, |record| record[24] = 8),
    ("folder-of-store", 2, |record| record[26] = 1),
    ("byte-25", 1, |record| record[25] = 1),
    ("date-zero", 5, |record| record[28..32].fill(0)),
    ("year-2200", 4, |record| {
        record[28..30].copy_from_slice(&2200u16.to_le_bytes())
    }),
    ("february-30", 3, |record| {
        record[30..32].copy_from_slice(&[2, 30])
    }),
    ("day-0", 2, |record| record[31] = 0),
    ("label-empty", 0, |record| record[32..64].fill(0)),
    ("label-space-first", 0, |record| record[32] = b' '),
    ("label-space-last", 3, |record| record[39] = b' '),
    ("label-gap", 1, |record| record[33] = 0),
    ("label-1f", 1, |record| record[34] = 0x1f),
    ("label-7f", 3, |record| record[35] = 0x7f),
    ("label-tail", 1, |record| record[63] = b'x'),
    ("label-of-store", 2, |record| record[32] = b'x'),
    ("mark-of-folder", 0, |record| record[64] = 1),
    ("mark-of-settle", 5, |record| record[79] = 1),
];

fn wrong_records(place: usize) -> Vec<Case> {
    let mut cases: Vec<Case> = Vec::new();
    let mut case = |number: u8, name: &str, record: usize, change: Change| {
        let file = changed(place, |block| change(record_of(block, record)));
        cases.push(refused(
            number,
            place,
            &format!("{name}-{}", WHERE[place]),
            file,
        ));
    };
    for (name, record, change) in MALFORMED {
        case(7, name, record, change);
    }
    case(8, "number-ahead", 1, |record| {
        record[2] += 1;
        record[4] += 1;
    });
    case(8, "seen-above", 1, |record| record[18] = 1);
    case(8, "seen-huge", 2, |record| record[18..20].fill(0xff));
    case(8, "seen-wraps", 3, |record| record[14..20].fill(0xff));
    // The settle of unit 2 saw the remove of unit 1, but not the rename that it saw.
    case(9, "unclosed", 5, |record| record[4] -= 1);
    cases.extend(wrong_ranks(place));
    cases
}

/// A record that stands a second time, at once or later.
fn wrong_ranks(place: usize) -> Vec<Case> {
    let again = |name: &str, back: usize| {
        let file = changed(place, |block| {
            let from = 28 + 80 * (4 - back);
            block.copy_within(from..from + 80, 28 + 80 * 4);
        });
        refused(20, place, &format!("{name}-{}", WHERE[place]), file)
    };
    vec![again("rank-equal", 1), again("rank-lower", 3)]
}

/// A state of which most is folded.
fn folded() -> Sab2 {
    let mut chance = Chance::new(41);
    let mut life = Units::empty(3, 7);
    for call in 0..220 {
        let unit = chance.below(3);
        life.act(&mut chance, &Mix::CONFLICTS, unit);
        life.pass(unit, chance.below(3));
        if call == 150 {
            life.fold(0, 0b111).expect("all are listed");
        }
    }
    let state = Sab2::of(&life.logs[0], &life.bases[0], 7, 0);
    assert!(state.row_blocks() > 3 && state.records.len() > 18);
    state
}

/// SAB2 files, good ones and some for each refusal.
fn sab2() -> Vec<Case> {
    let state = folded();
    let (first, blocks) = (state.row_blocks(), state.file().len() / BLOCK);
    let good = |name: &str, file: Vec<u8>| {
        assert!(listing(&file).starts_with(b"archive "), "{name}");
        let name = format!("good-sab2-{name}");
        Case { name, file }
    };
    let converted = |file: Vec<u8>| {
        let mut sab2 = vec![0; SAB2_FILE];
        let count = plain::to_sab2(&file, &mut sab2).expect("a good file");
        sab2.truncate(BLOCK * usize::from(count));
        sab2
    };
    let records = chain(&(0..512).map(|i| wished(3, 1, None, &i.to_string(), 0)).collect::<Vec<_>>());
    let mut cases = vec![
        good("empty", converted(file_of(&[], 1, 1))),
        good("example", converted(file_of(&examples::paper(), 7, 0))),
        good("512-records", converted(file_of(&records, 9, 3))),
        good("folded", state.file()),
    ];
    let mut no_records = state.clone();
    no_records.records.clear();
    let counts = no_records.rows[0];
    no_records.vector = std::array::from_fn(|unit| {
        u16::from_le_bytes([counts[8 + 2 * unit], counts[9 + 2 * unit]])
    });
    cases.push(good("no-records", no_records.file()));
    let file = state.file();
    for (name, place) in [("rows", 0), ("last-rows", first - 1), ("records", first), ("last", blocks - 1)] {
        let changed = |seals: bool, change: fn(&mut [u8])| {
            let mut file = file.clone();
            let block = &mut file[BLOCK * place..BLOCK * (place + 1)];
            change(block);
            if seals {
                seal(block);
            }
            file
        };
        let mut case = |number: u8, what: &str, file: Vec<u8>| {
            cases.push(refused(number, place, &format!("sab2-{what}-{name}"), file));
        };
        if place > 0 {
            case(3, "letters", changed(true, |block| block[3] = b'1'));
            case(20, "unit", changed(true, |block| block[8] ^= 1));
            case(20, "archive", changed(true, |block| block[7] = 1));
            case(20, "vector", changed(true, |block| block[12] ^= 1));
        }
        case(4, "body", changed(false, |block| block[200] ^= 0x10));
        case(4, "sum", changed(false, |block| block[511] ^= 0x10));
        case(5, "unit", changed(true, |block| block[8] = 8));
        case(5, "count", changed(true, |block| block[9] = 7));
        case(20, "place", changed(true, |block| block[10] ^= 1));
        case(20, "count-zero", changed(true, |block| {
            block[9] = 0;
            block[28..508].fill(0);
        }));
    }
    let case = |number: u8, place: usize, name: &str, state: Sab2| {
        refused(number, place, &format!("sab2-{name}"), state.file())
    };
    let head = |changes: &[(usize, u8)]| state.clone().with_row(0, changes);
    let entry = |changes: &[(usize, u8)]| state.clone().with_row(1, changes);
    cases.extend([
        refused(2, 0, "sab2-letters-alone", b"SAB2".to_vec()),
        refused(2, 0, "sab2-cut", file[..file.len() - 1].to_vec()),
        refused(2, 0, "sab2-187-blocks", file[..BLOCK].repeat(187)),
        refused(20, first - 1, "sab2-rows-alone", file[..BLOCK * first].to_vec()),
        refused(20, first - 2, "sab2-rows-cut", file[..BLOCK * (first - 1)].to_vec()),
        case(20, 0, "fewer-rows-said", head(&[(2, 0), (4, 0)])),
        case(31, 0, "head-byte-1", head(&[(1, 1)])),
        case(31, 0, "head-tail", head(&[(24, 1)])),
        case(31, 0, "unlisted", head(&[(0, 6)])),
        case(31, 0, "vector-zero", head(&[(8, 0), (9, 0)])),
        case(31, 0, "kind", entry(&[(0, 3)])),
        case(31, 0, "flag", entry(&[(1, 1)])),
        case(31, 0, "above", entry(&[(6, 0xff), (7, 0xff)])),
        case(31, 0, "in-itself", {
            let own: Vec<(usize, u8)> = (0..4).map(|i| (8 + i, state.rows[1][4 + i])).collect();
            entry(&own)
        }),
        case(31, 0, "date", entry(&[(22, 13)])),
        case(31, 0, "label", entry(&[(24, b' ')])),
        case(31, 0, "entry-tail", entry(&[(79, 1)])),
        case(7, first, "malformed", state.clone().with_record(0, &[(1, 9)])),
        case(8, first + 1, "number", state.clone().with_record(6, &[(18, 1)])),
        case(20, blocks - 1, "counts", {
            let mut other = state.clone();
            other.vector[7] += 1;
            other
        }),
    ]);
    let mut many = state.clone();
    many.rows = vec![[0; 80]; 1 + 513];
    many.rows[0][..4].copy_from_slice(&[7, 0, 1, 2]);
    cases.push(case(31, 0, "513-entries", many));
    cases
}

/// What only a whole file can have.
fn wrong_wholes() -> Vec<Case> {
    let mut counts = file_of(&blocks_of_six(3), 7, 0);
    for block in counts.chunks_mut(BLOCK) {
        block[12] += 1;
        seal(block);
    }
    let mut behind = file_of(&blocks_of_six(2), 7, 0);
    behind.extend([0; BLOCK]);
    let stores: Vec<Wished> = (0..513)
        .map(|i| match i {
            0 => wished(0, 2, None, "T", 1),
            _ => wished(i as u8 % 8, 3, Some(0), "", 0),
        })
        .collect();
    vec![
        refused(20, 2, "counts", counts),
        refused(3, 2, "zeros-behind", behind),
        refused(11, 85, "513-records", file_of(&chain(&stores), 7, 0)),
    ]
}
