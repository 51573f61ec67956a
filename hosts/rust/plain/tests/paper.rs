//! The bench examples of document 01, and its listing.

use plain::*;

type Log = Vec<u8>;

fn record(unit: u8, operation: u8, number: u16, seen: [u16; 8]) -> [u8; 80] {
    let mut record = [0; 80];
    record[0] = unit;
    record[1] = operation;
    record[2..4].copy_from_slice(&number.to_le_bytes());
    for (i, count) in seen.iter().enumerate() {
        record[4 + 2 * i..6 + 2 * i].copy_from_slice(&count.to_le_bytes());
    }
    dated(record, 2025, 3, 3)
}

fn dated(mut record: [u8; 80], year: u16, month: u8, day: u8) -> [u8; 80] {
    record[28..30].copy_from_slice(&year.to_le_bytes());
    record[30] = month;
    record[31] = day;
    record
}

fn labelled(mut record: [u8; 80], label: &str) -> [u8; 80] {
    record[32..32 + label.len()].copy_from_slice(label.as_bytes());
    record
}

fn marked(mut record: [u8; 80], byte: u8) -> [u8; 80] {
    record[64..].fill(byte);
    record
}

/// Names an identity: at 20 as object, at 24 as folder.
fn naming(mut record: [u8; 80], at: usize, unit: u8, number: u16) -> [u8; 80] {
    record[at] = unit;
    record[at + 2..at + 4].copy_from_slice(&number.to_le_bytes());
    record
}

fn log_of(records: &[[u8; 80]]) -> Log {
    let mut log = records.concat();
    log.resize(LOG, 0);
    log
}

fn listed(log: &[u8]) -> String {
    let mut file = vec![0; FILE];
    let blocks = write_file(log, &EMPTY_BASE, 7, 0, &mut file).unwrap() as usize;
    let mut out = [0; LISTING];
    let len = listing(&file[..BLOCK * blocks], &mut out);
    String::from_utf8(out[..len].to_vec()).unwrap()
}

/// Seen by a record made after the first one of unit 0.
const ONE: [u16; 8] = [1, 0, 0, 0, 0, 0, 0, 0];
const NONE: [u16; 8] = [0; 8];

#[test]
fn vectors_compare() {
    let vector = |first: &[u16]| {
        let mut vector = [0; 8];
        vector[..first.len()].copy_from_slice(first);
        vector
    };
    let compared = |first: &[u16; 8], second: &[u16; 8]| {
        let said = compare(first, second);
        (said.answer, said.first_lacks, said.second_lacks)
    };
    assert_eq!(
        compared(&vector(&[2, 1, 1]), &vector(&[1, 2, 1])),
        (3, 1, 1)
    );
    assert_eq!(
        compared(&vector(&[2, 2, 2]), &vector(&[2, 2, 2])),
        (0, 0, 0)
    );
    assert_eq!(compared(&vector(&[2, 1]), &vector(&[1, 1])), (1, 0, 1));
    assert_eq!(compared(&vector(&[1, 1]), &vector(&[2, 1])), (2, 1, 0));
    assert_eq!(compared(&[65_535; 8], &[32_768; 8]), (1, 0, 8 * 32_767));
    assert_eq!(compared(&[0; 8], &[65_535; 8]), (2, 524_280, 0));
}

#[test]
fn dates() {
    assert!(is_date(2000, 2, 29));
    assert!(!is_date(2100, 2, 29));
    assert!(!is_date(1989, 12, 31));
    assert!(is_date(2199, 12, 31));
    assert!(!is_date(2200, 1, 1));
}

#[test]
fn listing_of_the_paper() {
    let bench = labelled(record(0, 1, 1, NONE), "Bench");
    let gain = |record: [u8; 80]| naming(labelled(record, "Gain \"A\""), 24, 0, 1);
    let first = marked(dated(gain(record(0, 2, 2, ONE)), 2025, 3, 4), 0x11);
    let second = marked(dated(gain(record(1, 2, 1, ONE)), 2025, 3, 5), 0x22);
    assert_eq!(
        listed(&log_of(&[bench, first, second])),
        "archive 7 unit 0 records 3\n\
         seen 2 1 0 0 0 0 0 0\n\
         folder 0.1 in 0.0 \"Bench\" 2025-03-03\n\
         trace 0.2 in 0.1 \"Gain \\\"A\\\"\" 2025-03-04 11111111111111111111111111111111 disputed\n\
         aside 1.1 reason 15 marks 0.2 open\n"
    );
}

/// The asides after a first record and two that saw only it.
fn asides(first: [u8; 80], second: [u8; 80], third: [u8; 80]) -> String {
    let listed = listed(&log_of(&[first, second, third]));
    let asides: Vec<&str> = listed
        .lines()
        .filter(|line| line.starts_with("aside"))
        .collect();
    asides.join("\n")
}

#[test]
fn conflicts_on_a_trace() {
    let made = labelled(record(0, 2, 1, NONE), "A");
    let on_it = |unit: u8, operation: u8| {
        let number = if unit == 0 { 2 } else { 1 };
        naming(record(unit, operation, number, ONE), 20, 0, 1)
    };
    assert_eq!(
        asides(made, on_it(0, 3), on_it(1, 3)),
        "aside 1.1 reason 17 marks 0.1 open"
    );
    assert_eq!(
        asides(made, on_it(0, 3), on_it(1, 4)),
        "aside 1.1 reason 17 marks 0.1 open"
    );
    assert_eq!(
        asides(made, on_it(0, 4), on_it(1, 3)),
        "aside 1.1 reason 12 marks - open"
    );
}

#[test]
fn conflicts_on_a_folder() {
    let made = labelled(record(0, 1, 1, NONE), "A");
    let removed = |unit, number| naming(record(unit, 4, number, ONE), 20, 0, 1);
    let inside = |unit, number| labelled(naming(record(unit, 2, number, ONE), 24, 0, 1), "B");
    assert_eq!(
        asides(made, removed(0, 2), inside(1, 1)),
        "aside 1.1 reason 13 marks - open"
    );
    assert_eq!(
        asides(made, inside(0, 2), removed(1, 1)),
        "aside 1.1 reason 16 marks 0.1 open"
    );
}

#[test]
fn a_record_that_acted_stands_aside_after_a_meeting() {
    let wish = |unit: u8| {
        let mut wish = labelled(record(unit, 1, 0, NONE), "A");
        wish[2..20].fill(0);
        wish
    };
    let (mut zero, mut one): (Log, Log) = (vec![0; LOG], vec![0; LOG]);
    act(&mut zero, &EMPTY_BASE, &mut [], 7, 0, &wish(0)).unwrap();
    act(&mut one, &EMPTY_BASE, &mut [], 7, 1, &wish(1)).unwrap();
    assert!(listed(&one).ends_with("folder 1.1 in 0.0 \"A\" 2025-03-03\n"));
    let mut block = [0; BLOCK];
    hand_out(&zero, &EMPTY_BASE, 7, 0, &[0, 1, 0, 0, 0, 0, 0, 0], &mut block).unwrap();
    take(&mut one, &EMPTY_BASE, &mut [], 7, 1, &block).unwrap();
    assert!(listed(&one).ends_with("aside 1.1 reason 15 marks 0.1 open\n"));
}

#[test]
fn blocks_for_what_is_lacking() {
    for (records, blocks) in [(0, 1), (6, 1), (7, 2), (512, 86)] {
        let log = traces(records);
        let mut file = vec![0xa5; FILE];
        assert_eq!(write_file(&log, &EMPTY_BASE, 7, 0, &mut file), Ok(blocks));
        let last = &file[BLOCK * (blocks as usize - 1)..];
        assert_eq!(last[9] as usize, records - 6 * (blocks as usize - 1));
        let mut taken = vec![0; LOG];
        let mut passed = 0;
        loop {
            let mut block = [0; BLOCK];
            let held = taken
                .chunks(RECORD)
                .filter(|record| record[2..4] != [0, 0])
                .count();
            let asked = [held as u16, 0, 0, 0, 0, 0, 0, 0];
            hand_out(&log, &EMPTY_BASE, 7, 0, &asked, &mut block).unwrap();
            if block[9] == 0 {
                break;
            }
            take(&mut taken, &EMPTY_BASE, &mut [], 7, 1, &block).unwrap();
            passed += 1;
        }
        assert_eq!(passed, records.div_ceil(6));
        assert_eq!(taken, log);
    }
}

/// A log of so many traces, made by unit 0.
fn traces(count: usize) -> Log {
    let mut log = vec![0; LOG];
    for number in 1..=count {
        let mut wish = labelled(record(0, 2, 0, NONE), &number.to_string());
        wish[2..20].fill(0);
        act(&mut log, &EMPTY_BASE, &mut [], 7, 0, &wish).unwrap();
    }
    log
}

#[test]
fn labels() {
    let fits = |label: &str| well_formed(&labelled(record(0, 1, 1, NONE), label));
    assert!(fits(&"x".repeat(32)));
    assert!(!fits(&"x".repeat(33)));
    assert!(!fits("") && !fits(" a") && !fits("a ") && !fits("a\0b") && !fits("\x7f"));
    assert!(fits("~") && fits("a b"));
}
