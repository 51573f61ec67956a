//! SAB2 files through the crate: lengths, what refusals leave, both forms, and the
//! way from one to the other.

use plain::EMPTY_BASE;
use sab::raw::{self, BASE, BLOCK, FILE, LOG, SAB2};
use sab::{Date, Form, Identity, Log, Refusal, Unit, Units, Wish, merge, to_sab1, to_sab2};
use workload::{Mix, Units as Life, log_of};

fn refused<T>(number: u8) -> Result<T, Refusal> {
    Err(Refusal::new(number))
}

fn pattern(length: usize) -> Vec<u8> {
    (0..length).map(|i| (23 + 31 * i) as u8).collect()
}

fn wrong(stated: usize) -> [Vec<u8>; 4] {
    [0, stated - 1, stated + 1, 2 * stated].map(pattern)
}

/// A log and a base of two units that have folded.
fn state() -> (Vec<u8>, Vec<u8>) {
    let mut chance = workload::Chance::new(5);
    let mut life = Life::empty(2, 7);
    for _ in 0..60 {
        for unit in 0..2 {
            life.act(&mut chance, &Mix::MOVES, unit);
            life.pass(unit, 1 - unit);
        }
        if chance.one_in(20) {
            life.fold(0, 3).expect("both are listed");
        }
    }
    (life.logs.remove(0), life.bases.remove(0))
}

#[test]
fn lengths_and_units() {
    let (log, base) = state();
    let write = |log: &[u8], base: &[u8], unit, length| {
        let mut file = pattern(length);
        let answer = raw::write_sab2(log, base, 7, unit, &mut file);
        assert!(answer.is_ok() || file == pattern(length));
        answer
    };
    for log in wrong(LOG) {
        assert_eq!(write(&log, &base, 8, SAB2), refused(1));
    }
    for base in wrong(BASE) {
        assert_eq!(write(&log, &base, 8, SAB2), refused(1));
    }
    for file in wrong(SAB2) {
        assert_eq!(write(&log, &base, 8, file.len()), refused(1));
    }
    assert_eq!(write(&log, &base, 8, FILE), refused(1));
    for unit in [8, 255, 256, 65_536, u32::MAX] {
        assert_eq!(write(&pattern(LOG), &base, unit, SAB2), refused(21));
    }
    assert_eq!(write(&log, &pattern(BASE), 0, SAB2), refused(19));
    assert_eq!(write(&log, &EMPTY_BASE, 0, SAB2), refused(19));
    // The unit need not be listed.
    assert!(write(&log, &base, 6, SAB2).is_ok());
    for out in wrong(SAB2) {
        let mut lent = out.clone();
        assert_eq!(raw::to_sab2(&[], &mut lent), refused(1));
        assert_eq!(lent, out);
    }
    for out in wrong(FILE) {
        let mut lent = out.clone();
        assert_eq!(raw::to_sab1(&[], &mut lent), refused(1));
        assert_eq!(lent, out);
    }
}

#[test]
fn there_and_back() {
    let (log, base) = state();
    let log = Log::from_bytes(7, Unit::ALL[0], &log, &base).unwrap();
    let file = log.write_sab2().unwrap();
    assert_eq!(Form::of(&file), Form::Sab2);
    assert_eq!(Log::read_file(&file).as_ref(), Ok(&log));
    assert_eq!(log.write_file(), refused(29));
    assert_eq!(to_sab1(&file), refused(29));
    let counted = format!("records {}\n", log.records().len());
    assert!(
        log.listing()
            .unwrap()
            .lines()
            .next()
            .unwrap()
            .ends_with(counted.trim_end())
    );

    // A refused read leaves log and base, and says which block.
    let mut damaged = file.clone();
    damaged[BLOCK + 40] ^= 1;
    let (mut lent, mut lent_base) = (pattern(LOG), pattern(BASE));
    let sum = Refusal {
        number: 4,
        place: 1,
    };
    assert_eq!(
        raw::read_file(&mut lent, &mut lent_base, &damaged),
        Err(sum)
    );
    assert!(lent == pattern(LOG) && lent_base == pattern(BASE));
    assert_eq!(to_sab1(&damaged), Err(sum));
    assert!(sum.has_place() && Refusal::new(31).has_place());
}

#[test]
fn both_forms() {
    let log = log_of(512, 3, 4, &Mix::BENCH, 9);
    for records in [0, 1, 6, 7, 510, 512] {
        let mut first = log[..80 * records].to_vec();
        first.resize(LOG, 0);
        let log = Log::from_bytes(9, Unit::ALL[3], &first, &EMPTY_BASE).unwrap();
        let sab1 = log.write_file().unwrap();
        let sab2 = to_sab2(&sab1).unwrap();
        assert_eq!(sab2, log.write_sab2().unwrap());
        assert_eq!(Log::read_file(&sab2), Log::read_file(&sab1));
        assert_eq!(to_sab1(&sab2).as_ref(), Ok(&sab1));
        // Each takes its starting form alone, and so does a merge.
        let wrong = if sab2.len() > FILE { 2 } else { 3 };
        assert_eq!(to_sab2(&sab2), refused(wrong));
        assert_eq!(to_sab1(&sab1), refused(3));
        let merged = merge(&sab1, &sab2).unwrap_err();
        assert_eq!((merged.file, merged.refusal), (2, Refusal::new(wrong)));
    }
}

#[test]
fn a_lost_list() {
    let mut log = Log::start(7, Unit::ALL[0]);
    let day = Date::new(2025, 3, 3);
    log.act(&Wish::make_folder(Identity::ROOT, "Bench", day).unwrap())
        .unwrap();
    let two: Units = "0,1".parse().unwrap();
    assert_eq!(log.fold(two), Ok(0));
    let file = log.write_sab2().unwrap();
    assert_eq!(Log::read_file(&file).unwrap().base().units(), two);
    let back = to_sab1(&file).unwrap();
    assert_eq!(back, log.write_file().unwrap());
    assert_eq!(Log::read_file(&back).unwrap().base().units(), Units::ALL);
}

#[test]
fn words() {
    assert_eq!(Form::of(b"SAB"), Form::Sab1);
    assert_eq!(Form::of(b"SAB2"), Form::Sab2);
    assert_eq!(
        format!("{:>6}{:<6}", Form::Sab1, Form::Sab2),
        "  SAB1SAB2  "
    );
    assert_eq!(
        Refusal::new(31).to_string(),
        "refused 31: the list or base of the file breaks its layout or is not sound"
    );
}
