//! One file out of two, against the static library.

use plain::EMPTY_BASE;
use sab::raw::{self, BLOCK, FILE, LOG, WISH};
use sab::{Log, MergeRefusal, Refusal, merge};
use workload::{Chance, Mix, Units, log_of, vector_of};

const ARCHIVE: u32 = 0xfedc_ba98;

/// Work memory.
fn work() -> Vec<u8> {
    vec![0xa5; raw::WORK]
}

type Merged = Result<u16, MergeRefusal>;

fn refused(number: u8, place: u8, file: u8) -> Merged {
    let refusal = Refusal { number, place };
    Err(MergeRefusal { refusal, file })
}

/// Bytes that a call must leave.
fn pattern(length: usize) -> Vec<u8> {
    (0..length).map(|i| (17 + 31 * i) as u8).collect()
}

fn file_of(log: &[u8], unit: u32) -> Vec<u8> {
    let mut file = vec![0; FILE];
    let blocks = raw::write_file(log, &EMPTY_BASE, ARCHIVE, unit, &mut file).unwrap();
    file.truncate(BLOCK * blocks as usize);
    file
}

/// A merge that is refused leaves the lent bytes.
fn merged(first: &[u8], second: &[u8]) -> Merged {
    let (mut log, mut file) = (pattern(LOG), pattern(FILE));
    let answer = raw::merge(first, second, &mut log, &mut file);
    assert!(answer.is_ok() || log == pattern(LOG) && file == pattern(FILE));
    answer
}

/// The log of a unit that made so many folders alone.
fn alone(unit: u32, folders: usize, day: u8) -> Vec<u8> {
    let mut log = vec![0; LOG];
    for i in 0..folders {
        let mut wish = [0; WISH];
        wish[..2].copy_from_slice(&[unit as u8, 1]);
        wish[28..32].copy_from_slice(&[0xe9, 7, 3, day]);
        wish[32..36].copy_from_slice(format!("{i:04}").as_bytes());
        raw::act(&mut log, &EMPTY_BASE, &mut [], ARCHIVE, unit, &wish, &mut work()).unwrap();
    }
    log
}

/// Two units that worked apart for a while, and what one holds after it took all
/// from the other.
fn apart(seed: u64) -> [Vec<u8>; 3] {
    let mut chance = Chance::new(seed);
    let mut units = Units::empty(2, ARCHIVE);
    for made in 0..60 {
        let unit = chance.below(2);
        units.act(&mut chance, &Mix::MOVES, unit);
        if made == 20 {
            units.pass(0, 1);
        }
    }
    let [first, second] = units.logs.clone().try_into().unwrap();
    units.pass(1, 0);
    [first, second, units.logs.swap_remove(0)]
}

#[test]
fn all_records_of_both() {
    for seed in 0..20 {
        let [first, second, both] = apart(seed);
        let (one, other) = (file_of(&first, 3), file_of(&second, 5));
        for (unit, files) in [(3, [&one, &other]), (5, [&other, &one])] {
            let (mut log, mut file) = (pattern(LOG), pattern(FILE));
            let blocks = raw::merge(files[0], files[1], &mut log, &mut file).unwrap();
            assert_eq!(log, both);
            let expected = file_of(&both, unit);
            assert_eq!(BLOCK * blocks as usize, expected.len());
            assert_eq!(file[..expected.len()], expected);
            assert!(file[expected.len()..].iter().all(|byte| *byte == 0));
        }
        assert_eq!(merge(&one, &one).unwrap(), one);
        let both = Log::read_file(&merge(&one, &other).unwrap()).unwrap();
        assert_eq!((both.archive(), both.unit().number()), (ARCHIVE, 3));
    }
}

#[test]
fn empty_files() {
    let (none, some) = (file_of(&vec![0; LOG], 6), file_of(&alone(1, 13, 3), 1));
    assert_eq!(merge(&none, &none).unwrap(), none);
    assert_eq!(merge(&some, &none).unwrap(), some);
    assert_eq!(merge(&none, &some).unwrap(), file_of(&alone(1, 13, 3), 6));
}

#[test]
fn a_full_file() {
    let (full, rest) = (alone(0, 300, 3), alone(1, 212, 3));
    let file = merge(&file_of(&full, 0), &file_of(&rest, 1)).unwrap();
    assert_eq!(file.len(), FILE);
    let mut log = vec![0; LOG];
    raw::read_file(&mut log, &mut EMPTY_BASE.clone(), &file).unwrap();
    assert_eq!(vector_of(&log), [300, 212, 0, 0, 0, 0, 0, 0]);
    assert_eq!(merge(&file, &file).unwrap(), file);
    // The 213th of unit 1 is the 513th: record 212 of its file, in block 35.
    let one_more = file_of(&alone(1, 213, 3), 1);
    assert_eq!(merged(&file_of(&full, 0), &one_more), refused(11, 35, 2));
    // Common records need no room: of the second file only the last is new.
    assert_eq!(merged(&file, &one_more), refused(11, 35, 2));
    assert_eq!(merged(&one_more, &file), refused(11, 85, 2));
}

/// The first file is checked wholly before the second, and both before what they
/// are together.
#[test]
fn order_of_checks() {
    let log = log_of(40, 4, 5, &Mix::CONFLICTS, 3);
    let good = file_of(&log, 2);
    let damaged = |place: usize| {
        let mut file = good.clone();
        file[BLOCK * place + 60] ^= 4;
        file
    };
    let mut elsewhere = vec![0; FILE];
    raw::write_file(&log, &EMPTY_BASE, ARCHIVE + 1, 2, &mut elsewhere).unwrap();
    elsewhere.truncate(good.len());
    assert_eq!(merged(&damaged(5), &[]), refused(4, 5, 1));
    assert_eq!(merged(&good[..511], &damaged(0)), refused(2, 0, 1));
    assert_eq!(merged(&good, &damaged(6)), refused(4, 6, 2));
    assert_eq!(merged(&good, &[]), refused(2, 0, 2));
    assert_eq!(merged(&good, &elsewhere), refused(6, 0, 2));
    elsewhere[6 * BLOCK + 60] ^= 4;
    assert_eq!(merged(&good, &elsewhere), refused(4, 6, 2));
}

/// A number that was used twice: 10 at the second file's block, before 11.
#[test]
fn numbers_used_twice() {
    let first = file_of(&alone(0, 20, 3), 0);
    let second = file_of(&alone(0, 20, 4), 0);
    assert_eq!(merged(&first, &second), refused(10, 0, 2));

    // Records of units 1 and 2 by turns, and the last six of unit 1: its 13th,
    // of another day, is the 20th of the file.
    let mut log = alone(1, 13, 3);
    log[80 * 12 + 31] = 4;
    let second = merge(&file_of(&log, 1), &file_of(&alone(2, 7, 3), 2)).unwrap();
    let full = |own: usize, common: usize| {
        let common = file_of(&alone(1, common, 3), 1);
        merge(&file_of(&alone(0, own, 3), 0), &common).unwrap()
    };
    assert_eq!(merged(&full(500, 12), &second), refused(11, 0, 2));
    assert_eq!(merged(&full(499, 13), &second), refused(10, 3, 2));
}

#[test]
fn lent_lengths() {
    let file = file_of(&alone(0, 7, 3), 0);
    for length in [0, LOG - 1, LOG + 1] {
        let (mut log, mut lent) = (pattern(length), pattern(FILE));
        let answer = raw::merge(&[], &file, &mut log, &mut lent);
        assert_eq!(answer, refused(1, 0, 0));
        assert!(log == pattern(length) && lent == pattern(FILE));
    }
    for length in [0, FILE - 1, FILE + 1, 2 * BLOCK] {
        let (mut log, mut lent) = (pattern(LOG), pattern(length));
        let answer = raw::merge(&[], &file, &mut log, &mut lent);
        assert_eq!(answer, refused(1, 0, 0));
        assert!(log == pattern(LOG) && lent == pattern(length));
    }
}
