//! Another maker's order through the crate: lengths, refusals and what they leave,
//! rank order, and lists that are none.

use plain::EMPTY_BASE;
use sab::raw::{self, BASE, LOG, TREE};
use sab::{Answer, Condition, Date, Identity, Log, Refusal, Unit, Units, Wish, meet};
use workload::{Mix, log_of};

fn pattern(length: usize) -> Vec<u8> {
    (0..length).map(|i| (17 + 31 * i) as u8).collect()
}

fn wrong(stated: usize) -> [Vec<u8>; 4] {
    [0, stated - 1, stated + 1, 2 * stated].map(pattern)
}

/// The names of the records of a log, by rank.
fn by_rank(log: &[u8]) -> Vec<u8> {
    let used = log.chunks(80).filter(|record| record.iter().any(|byte| *byte != 0));
    used.flat_map(|record| [record[0], 0, record[2], record[3]]).collect()
}

/// Checks an order with tables of these lengths, which must stay as they were unless
/// it answers 0 or 3.
fn check(log: &[u8], base: &[u8], list: &[u8], [ours, theirs]: [usize; 2]) -> Answer<u16> {
    let (mut mine, mut other) = (pattern(ours), pattern(theirs));
    let answer = raw::check_order(log, base, list, &mut mine, &mut other);
    if !matches!(answer, Ok(0 | 3)) {
        assert!(mine == pattern(ours) && other == pattern(theirs));
    }
    answer
}

#[test]
fn lengths_soundness_folded() {
    let log = log_of(40, 4, 5, &Mix::CONFLICTS, 3);
    let list = by_rank(&log);
    let one = Err(Refusal::new(1));
    for log in wrong(LOG) {
        assert_eq!(check(&log, &EMPTY_BASE, &list, [TREE; 2]), one);
    }
    for base in wrong(BASE) {
        assert_eq!(check(&log, &base, &list, [TREE; 2]), one);
    }
    for length in [0, TREE - 1, TREE + 1] {
        assert_eq!(check(&pattern(LOG), &EMPTY_BASE, &[], [length, TREE]), one);
        assert_eq!(check(&pattern(LOG), &EMPTY_BASE, &[], [TREE, length]), one);
    }
    let mut counted = EMPTY_BASE.to_vec();
    counted[8] = 1;
    let bases: [(&[u8], &[u8]); 3] = [
        (&log, &pattern(BASE)),
        (&pattern(LOG), &EMPTY_BASE),
        (&pattern(LOG), &counted),
    ];
    for (log, base) in bases {
        assert_eq!(check(log, base, &list, [TREE; 2]), Err(Refusal::new(19)));
    }
    let none = vec![0; LOG];
    assert_eq!(check(&none, &counted, &[], [TREE; 2]), Err(Refusal::new(29)));
    assert_eq!(check(&none, &EMPTY_BASE, &[], [TREE; 2]), Ok(0));
}

#[test]
fn rank_order_and_no_order() {
    for seed in 0..40 {
        let log = log_of(12 * (1 + seed as usize), 4, 5, &Mix::CONFLICTS, seed);
        let list = by_rank(&log);
        let (mut ours, mut theirs, mut tree) = (pattern(TREE), pattern(TREE), pattern(TREE));
        assert_eq!(raw::check_order(&log, &EMPTY_BASE, &list, &mut ours, &mut theirs), Ok(0));
        raw::show(&log, &EMPTY_BASE, &mut tree).unwrap();
        assert!(ours == tree && theirs == tree);
        let checked = |list: &[u8]| check(&log, &EMPTY_BASE, list, [TREE; 2]);
        assert_eq!(checked(&list[..list.len() - 1]), Ok(1));
        assert_eq!(checked(&[&list[..], &[0]].concat()), Ok(1));
        assert_eq!(checked(&[&list[..], &list[..4]].concat()), Ok(1));
        assert_eq!(checked(&pattern(1 << 16)), Ok(1));
        for (byte, value) in [(0, 8), (1, 1), (2, 0), (3, 255)] {
            let mut list = list.clone();
            list[byte] = value;
            assert_eq!(checked(&list), Ok(1));
        }
    }
}

#[test]
fn by_types() {
    let day = Date::new(2025, 3, 3);
    let folder = |label: &str| Wish::make_folder(Identity::ROOT, label, day).unwrap();
    let mut van = Log::start(7, Unit::ALL[0]);
    let mut bench = Log::start(7, Unit::ALL[1]);
    let first = van.act(&folder("Bench")).unwrap();
    let apart = bench.act(&folder("Roof")).unwrap();
    let second = van.act(&folder("Yard")).unwrap();
    meet(&mut van, &mut bench);
    let failed = |log: &Log, order: &[Identity]| log.check_order(order).unwrap().failed;
    for log in [&van, &bench] {
        for order in [[first, second, apart], [first, apart, second], [apart, first, second]] {
            assert_eq!(failed(log, &order), None);
        }
        assert_eq!(failed(log, &[second, first, apart]), Some(Condition::Seen));
        assert_eq!(failed(log, &[first, second]), Some(Condition::Names));
        assert_eq!(failed(log, &[first, second, apart, Identity::ROOT]), Some(Condition::Names));
        assert_eq!(log.check_order(&[first]).unwrap().trees, None);
        let (ours, theirs) = log.check_order(&[apart, first, second]).unwrap().trees.unwrap();
        assert_eq!(ours.entries().count(), 3);
        assert!(ours.entries().all(|entry| theirs.entry(entry.identity()).is_some()));
    }
    let units: Units = "0,1".parse().unwrap();
    van.act(&folder("Attic")).unwrap();
    meet(&mut van, &mut bench);
    bench.act(&folder("Cellar")).unwrap();
    meet(&mut van, &mut bench);
    assert!(van.fold(units).unwrap() > 0);
    assert_eq!(van.check_order(&[]), Err(Refusal::new(29)));
    assert_eq!(failed(&bench, &[]), Some(Condition::Names));
}
