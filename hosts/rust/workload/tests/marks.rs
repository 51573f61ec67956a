//! Another content mark stays small: of logs drawn by chance, the mark of each make
//! trace and each store is changed, one at a time, and both trees are compared.

use plain::{ASIDE_ROW, EMPTY_BASE, ENTRY_ROW, LOG, RECORD, RECORDS, ROWS, TREE};
use workload::{Mix, log_of};

/// Where the mark stands in a record and in an entry's row.
const MARK: usize = 64;
const ROW_MARK: usize = 56;

/// What becomes of a mark.
#[derive(Debug, Default, PartialEq)]
struct Counts {
    /// It is shown, and is the one difference.
    shown: usize,
    /// Its record stands aside.
    aside: usize,
    /// A later store has fitted on the trace.
    stored: usize,
    /// The trace was removed.
    gone: usize,
}

fn shown(log: &[u8]) -> [u8; TREE] {
    let mut table = [0; TREE];
    plain::show(log, &EMPTY_BASE, &mut table).expect("a sound log");
    table
}

fn count(table: &[u8; TREE], at: usize) -> usize {
    usize::from(u16::from_le_bytes([table[at], table[at + 1]]))
}

fn entries(table: &[u8; TREE]) -> impl Iterator<Item = &[u8]> {
    table[4..].chunks(ENTRY_ROW).take(count(table, 0))
}

fn stands_aside(table: &[u8; TREE], identity: &[u8]) -> bool {
    let mut asides = table[4 + ROWS * ENTRY_ROW..]
        .chunks(ASIDE_ROW)
        .take(count(table, 2));
    asides.any(|row| row[..4] == *identity)
}

/// The four bytes that name a record in a table.
fn identity(record: &[u8]) -> [u8; 4] {
    [record[0], 0, record[2], record[3]]
}

/// The places in the log of the records that have a mark.
fn marked(log: &[u8]) -> Vec<usize> {
    let places = (0..RECORDS).map(|at| at * RECORD);
    let held = places.take_while(|at| log[at + 2..at + 4] != [0, 0]);
    held.filter(|at| matches!(log[at + 1], 2 | 3)).collect()
}

/// Whether a later record stores to the trace and fits.
fn stored_later(log: &[u8], table: &[u8; TREE], at: usize, trace: &[u8]) -> bool {
    marked(log).into_iter().any(|later| {
        let record = &log[later..later + RECORD];
        later > at
            && record[1] == 3
            && record[20..24] == *trace
            && !stands_aside(table, &identity(record))
    })
}

/// Changes the mark of the record there and compares.
fn compare(log: &[u8], table: &[u8; TREE], at: usize, counts: &mut Counts) {
    let mut other_log = log.to_vec();
    for byte in &mut other_log[at + MARK..at + RECORD] {
        *byte = !*byte;
    }
    let other = shown(&other_log);
    let record = &log[at..at + RECORD];
    let own = identity(record);
    let trace: [u8; 4] = match record[1] {
        2 => own,
        _ => record[20..24].try_into().expect("four bytes"),
    };
    let row = entries(table).position(|row| row[4..8] == trace);
    let one = match row {
        _ if stands_aside(table, &own) => {
            counts.aside += 1;
            None
        }
        None => {
            counts.gone += 1;
            None
        }
        Some(_) if stored_later(log, table, at, &trace) => {
            counts.stored += 1;
            None
        }
        Some(row) => {
            counts.shown += 1;
            Some(4 + row * ENTRY_ROW + ROW_MARK)
        }
    };
    let mut wanted = *table;
    if let Some(mark) = one {
        assert_eq!(table[mark..mark + 16], record[MARK..]);
        wanted[mark..mark + 16].copy_from_slice(&other_log[at + MARK..at + RECORD]);
    }
    assert!(other == wanted, "record {own:?}");
}

#[test]
fn one_mark_at_a_time() {
    let mut counts = Counts::default();
    let mut all = 0;
    for seed in 0..400 {
        let mix = [Mix::CONFLICTS, Mix::BENCH, Mix::MOVES, Mix::CASES][seed as usize % 4];
        let log = log_of(10 + seed as usize % 110, 5, 4, &mix, seed);
        assert_eq!(log.len(), LOG);
        let table = shown(&log);
        for at in marked(&log) {
            all += 1;
            compare(&log, &table, at, &mut counts);
        }
    }
    println!("{all} marks: {counts:?}");
    let Counts {
        shown,
        aside,
        stored,
        gone,
    } = counts;
    assert_eq!(shown + aside + stored + gone, all);
    assert!(
        [shown, aside, stored, gone].iter().all(|kind| *kind > 300),
        "{counts:?}"
    );
}
