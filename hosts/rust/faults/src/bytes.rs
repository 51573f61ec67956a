//! Damaged blocks and files: every single byte, every length.

use crate::study::{End, Plan, Tally, incorrect};
use crate::world::{ARCHIVE, apart, file_of, first, hand_out, held, take};
use library::{Head, Library, Refusal};
use plain::{BLOCK, EMPTY_BASE, LOG};
use workload::{Mix, log_of};

/// The number that a changed byte gives: letters or sums.
fn expected(place: usize) -> u8 {
    if place % BLOCK < 4 { 3 } else { 4 }
}

/// The same in a file. With the letters SAB2 it is of the other form, and its sum is
/// wrong.
fn expected_in_file(place: usize, byte: u8) -> u8 {
    match (place, byte) {
        (3, b'2') => 4,
        _ => expected(place),
    }
}

/// Every other value of every byte of several blocks, given to a take.
pub fn blocks(library: &dyn Library, plan: &Plan) -> Tally {
    let mut tally = Tally::default();
    for round in 0..plan.count(2, 24) {
        let logs = apart(
            2,
            [3, 16, 60, 200][round % 4],
            &Mix::CONFLICTS,
            plan.seed + round as u64,
        );
        let Ok(good) = hand_out(library, &logs[0], 0, &logs[1]) else {
            tally.count(|| format!("block {round}"), incorrect("not handed out"));
            continue;
        };
        let mut log = logs[1].clone();
        let mut block = good;
        for place in 0..BLOCK {
            if !tally.goes_on(plan) {
                return tally;
            }
            for change in 1..=255 {
                block[place] = good[place] ^ change;
                let end = refused_block(library, &mut log, &logs[1], &block, expected(place));
                tally.count(|| format!("block {round}, byte {place} by {change}"), end);
            }
            block[place] = good[place];
        }
        // The good block is still taken.
        let end = take(library, &mut log, 1, &good).map(|()| false);
        tally.count(|| format!("block {round}"), end);
    }
    tally
}

fn refused_block(
    library: &dyn Library,
    log: &mut [u8],
    before: &[u8],
    block: &[u8],
    number: u8,
) -> End {
    let answer = library.take(log, &EMPTY_BASE, &mut [], ARCHIVE, 1, block);
    if answer != Err(Refusal { number, place: 0 }) {
        return incorrect(format!("{answer:?}, not {number}"));
    }
    if *log != *before {
        return incorrect("refused, but the log changed");
    }
    Ok(false)
}

/// A log whose bytes no file has.
fn lent() -> Vec<u8> {
    (0..LOG).map(|i| (5 + 31 * i) as u8).collect()
}

/// The answer must be a refusal by one of these numbers that leaves the log.
fn refused_file(
    answer: Result<Head, Refusal>,
    log: &[u8],
    before: &[u8],
    numbers: &[u8],
    place: usize,
) -> End {
    let Err(refusal) = answer else {
        return incorrect("read");
    };
    if !numbers.contains(&refusal.number) || refusal.place as usize != place {
        return incorrect(format!("{refusal:?}, not {numbers:?} at {place}"));
    }
    if log != before {
        return incorrect("refused, but the log changed");
    }
    Ok(false)
}

/// Every other value of every byte of several files.
pub fn files(library: &dyn Library, plan: &Plan) -> Tally {
    let mut tally = Tally::default();
    let before = lent();
    let mut log = before.clone();
    let sizes: &[usize] = plan.count(&[0, 7], &[0, 1, 6, 13, 60, 200, 512]);
    for (round, size) in sizes.iter().enumerate() {
        let good = file_of(&log_of(
            *size,
            3,
            6,
            &Mix::CONFLICTS,
            plan.seed + round as u64,
        ));
        let mut file = good.clone();
        for place in 0..file.len() {
            if !tally.goes_on(plan) {
                return tally;
            }
            for change in 1..=255 {
                file[place] = good[place] ^ change;
                let answer = library.read_file(&mut log, &mut EMPTY_BASE.clone(), &file);
                let number = expected_in_file(place, file[place]);
                let end = refused_file(answer, &log, &before, &[number], place / BLOCK);
                tally.count(|| format!("{size} records, byte {place} by {change}"), end);
            }
            file[place] = good[place];
        }
    }
    tally
}

/// Files cut after every byte, and with zeros in place of what is missing.
pub fn short_files(library: &dyn Library, plan: &Plan) -> Tally {
    let mut tally = Tally::default();
    let before = lent();
    let mut log = before.clone();
    let full = log_of(512, 8, 6, &Mix::BENCH, plan.seed);
    let sizes: &[usize] = plan.count(&[6, 20], &[6, 7, 20, 100, 511, 512]);
    for size in sizes {
        let good = file_of(&first(&full, *size));
        assert_eq!(held(&first(&full, *size)), *size);
        for length in 0..good.len() {
            if !tally.goes_on(plan) {
                return tally;
            }
            let whole = length > 0 && length % BLOCK == 0;
            // What is left has full blocks, so its counts are not its vector.
            let (number, place) = if whole {
                (20, length / BLOCK - 1)
            } else {
                (2, 0)
            };
            let answer = library.read_file(&mut log, &mut EMPTY_BASE.clone(), &good[..length]);
            let end = refused_file(answer, &log, &before, &[number], place);
            tally.count(|| format!("{size} records, {length} bytes"), end);

            let Some(zeros) = good[length..].iter().position(|byte| *byte != 0) else {
                continue;
            };
            let mut zeroed = good.clone();
            zeroed[length..].fill(0);
            let answer = library.read_file(&mut log, &mut EMPTY_BASE.clone(), &zeroed);
            let end = refused_file(answer, &log, &before, &[3, 4], (length + zeros) / BLOCK);
            tally.count(|| format!("{size} records, zeros from {length}"), end);
        }
    }
    tally
}
