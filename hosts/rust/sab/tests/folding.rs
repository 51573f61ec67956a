//! Folding through the crate: lengths, lists, what refusals leave, and meetings of
//! units that have folded.

use plain::EMPTY_BASE;
use sab::raw::{self, BASE, INDEX, LOG, TREE, WORK};
use sab::{Asking, Date, Identity, Log, Refusal, Unit, Units, Wish, meet, pass};
use workload::{Mix, log_of};

const ARCHIVE: u32 = 0xfedc_ba98;

fn refused<T>(number: u8) -> Result<T, Refusal> {
    Err(Refusal::new(number))
}

fn pattern(length: usize) -> Vec<u8> {
    (0..length).map(|i| (17 + 31 * i) as u8).collect()
}

fn wrong(stated: usize) -> [Vec<u8>; 4] {
    [0, stated - 1, stated + 1, 2 * stated].map(pattern)
}

fn folder(label: &str) -> Wish {
    Wish::make_folder(Identity::ROOT, label, Date::new(2025, 3, 3)).unwrap()
}

fn start(unit: usize) -> Log {
    Log::start(ARCHIVE, Unit::ALL[unit])
}

fn units(text: &str) -> Units {
    text.parse().unwrap()
}

#[test]
fn lengths_units_and_lists() {
    let log = log_of(40, 4, 5, &Mix::CONFLICTS, 3);
    let fold = |log: &[u8], base: &[u8], unit, list, work: usize| {
        let (mut left, mut left_base) = (log.to_vec(), base.to_vec());
        let answer = raw::fold(&mut left, &mut left_base, 7, unit, list, &mut pattern(work));
        if answer.is_err() {
            assert!(left == log && left_base == base);
        }
        answer
    };
    for log in wrong(LOG) {
        assert_eq!(fold(&log, &EMPTY_BASE, 8, 0, WORK), refused(1));
    }
    for base in wrong(BASE) {
        assert_eq!(fold(&log, &base, 8, 0, WORK), refused(1));
    }
    for work in [0, WORK - 1, WORK + 1] {
        assert_eq!(fold(&log, &EMPTY_BASE, 8, 0, work), refused(1));
    }
    for unit in [8, 255, 256, 65_536, u32::MAX] {
        assert_eq!(fold(&log, &pattern(BASE), unit, 15, WORK), refused(21));
    }
    assert_eq!(fold(&log, &pattern(BASE), 0, 0, WORK), refused(19));
    assert_eq!(fold(&pattern(LOG), &EMPTY_BASE, 0, 0, WORK), refused(19));
    // Without the own unit, without one that has a record, and above 255.
    for list in [0, 14, 13, 11, 7, 256, 256 + 15, 0x0100_000f, u32::MAX] {
        assert_eq!(fold(&log, &EMPTY_BASE, 0, list, WORK), refused(26));
    }
    assert!(fold(&log, &EMPTY_BASE, 0, 15, WORK).is_ok());
    // Four units are silent, and hold all back.
    assert_eq!(fold(&log, &EMPTY_BASE, 0, 255, WORK), Ok(0));
}

/// A take is lent an index and work memory, or neither.
#[test]
fn work_memory() {
    let (mut log, mut base) = (vec![0; LOG], EMPTY_BASE.to_vec());
    let block = {
        let mut giver = start(1);
        giver.act(&folder("Bench")).unwrap();
        *giver.hand_out(&Default::default()).unwrap().as_bytes()
    };
    for (index, work) in [(0, WORK), (INDEX, 0), (INDEX, WORK - 1), (INDEX - 1, WORK), (0, 1)] {
        let (mut index, mut work) = (pattern(index), pattern(work));
        let before = index.clone();
        let lent = (&mut log, &base, &mut index, &mut work);
        let taken = raw::take(lent.0, lent.1, lent.2, ARCHIVE, 8, &block, lent.3);
        assert_eq!(taken, refused(1));
        let lent = (&mut log, &base, &mut index, &mut work);
        let taken = raw::take_row(lent.0, lent.1, lent.2, ARCHIVE, 8, &[1], lent.3);
        assert_eq!(taken.map(drop), refused(1));
        assert!(index == before && log == vec![0; LOG]);
    }
    let wish = [0; 80];
    for mut work in wrong(WORK) {
        let acted = raw::act(&mut log, &base, &mut [], ARCHIVE, 8, &wish, &mut work);
        assert_eq!(acted, refused(1));
        let made = raw::index(&log, &base, &mut pattern(INDEX), &mut work);
        assert_eq!(made, refused(1));
    }
    let mut index = vec![0; INDEX];
    let taken = raw::take(&mut log, &base, &mut index, ARCHIVE, 0, &block, &mut pattern(WORK));
    assert_eq!(taken, Ok(()));
    let mut fresh = pattern(INDEX);
    raw::index(&log, &base, &mut fresh, &mut pattern(WORK)).unwrap();
    assert!(index == fresh);
    // Every call is lent the base; one of another length is 1, before 21.
    for mut base in wrong(BASE) {
        let before = base.clone();
        let mut block = pattern(512);
        assert_eq!(raw::start(&mut log, &mut base, &mut [], 7, 8), refused(1));
        let acted = raw::act(&mut log, &base, &mut [], 7, 8, &wish, &mut pattern(WORK));
        assert_eq!(acted, refused(1));
        let handed = raw::hand_out(&log, &base, 7, 8, &[0; 8], &mut block);
        assert_eq!(handed, refused(1));
        assert_eq!(raw::take(&mut log, &base, &mut [], 7, 8, &block, &mut []), refused(1));
        let written = raw::write_file(&log, &base, 7, 8, &mut pattern(raw::FILE));
        assert_eq!(written, refused(1));
        assert_eq!(raw::read_file(&mut log, &mut base, &[]), refused(1));
        assert_eq!(raw::show(&log, &base, &mut pattern(TREE)), refused(1));
        assert_eq!(raw::vector(&log, &base), refused(1));
        assert!(base == before);
    }
    base[1] = 1;
    assert_eq!(raw::vector(&log, &base), refused(19));
    assert_eq!(raw::show(&log, &base, &mut pattern(TREE)), refused(19));
    assert_eq!(raw::start(&mut log, &mut base, &mut [], 7, 0), Ok(()));
    assert!(base == EMPTY_BASE && log == vec![0; LOG]);
}

/// Two units that act and meet; each has told the other.
fn pair() -> [Log; 2] {
    let [mut zero, mut one] = [start(0), start(1)];
    for label in ["a", "b", "c"] {
        zero.act(&folder(label)).unwrap();
    }
    assert!(meet(&mut zero, &mut one).is_complete());
    one.act(&folder("d")).unwrap();
    assert!(meet(&mut zero, &mut one).is_complete());
    [zero, one]
}

#[test]
fn a_fold_changes_nothing_that_is_shown() {
    let [mut zero, one] = pair();
    zero.keep_index().unwrap();
    let (tree, vector) = (zero.show().unwrap(), zero.vector().unwrap());
    let index = zero.index().cloned();
    assert_eq!(zero.fold(units("0,1")), Ok(4));
    assert_eq!((zero.show().unwrap(), zero.vector().unwrap()), (tree, vector));
    assert_eq!(zero.index().cloned(), index);
    assert_eq!(zero.make_index().ok(), index);
    assert_eq!(zero.records().len(), 0);
    let base = zero.base();
    assert_eq!(base.units(), units("0,1"));
    assert_eq!(base.vector().to_string(), "3 1 0 0 0 0 0 0");
    assert_eq!((base.entries().len(), base.asides().len()), (4, 0));
    assert!(base.has_folded("0.3".parse().unwrap()) && !base.has_folded("0.4".parse().unwrap()));
    assert_eq!(zero.write_file(), refused(29));
    assert_eq!(zero.fold(units("0,1,2")), Ok(0));
    assert_eq!(zero.base().units(), units("0,1,2"));
    assert_eq!(zero.fold(units("0")), refused(26));
    assert_eq!(zero.act(&folder("A")), refused(15));
    assert_eq!(zero.act(&folder("e")).unwrap().to_string(), "0.4");
    let read = Log::from_bytes(ARCHIVE, zero.unit(), zero.as_bytes(), zero.base().as_bytes());
    assert_eq!(read, Ok(zero.clone()));
    assert_ne!(one.base(), zero.base());
}

#[test]
fn careful_meetings_with_a_base() {
    let [mut zero, mut one] = pair();
    assert_eq!(zero.fold(units("0,1")), Ok(4));
    // The last records are folded at unit 0: they are not asked for again.
    let asking = Asking::careful(&one).unwrap();
    assert_eq!(asking.vector().to_string(), "2 0 0 0 0 0 0 0");
    assert_eq!(zero.hand_out(&asking.vector()), refused(27));
    let asking = asking.above(&one, &zero.base().vector()).unwrap();
    assert_eq!(asking.vector().to_string(), "3 1 0 0 0 0 0 0");
    zero.act(&folder("e")).unwrap();
    one.act(&folder("f")).unwrap();
    let meeting = meet(&mut zero, &mut one);
    assert!(meeting.is_complete(), "{meeting}");
    assert_eq!(zero.show(), one.show());
    // What was folded at unit 0 comes back to it, and is passed over.
    assert!(Asking::thorough().pass(&one, &mut zero).refusal.is_none());
    // A unit that is behind the base takes from one that has not folded.
    let mut two = start(2);
    assert_eq!(pass(&zero, &mut two).refusal, Some(Refusal::new(27)));
    assert!(pass(&one, &mut two).refusal.is_none());
    assert_eq!(two.show(), one.show());
    // It was not listed when unit 0 folded.
    two.act(&folder("g")).unwrap();
    let meeting = meet(&mut two, &mut zero);
    assert_eq!(meeting.to_second.refusal, Some(Refusal::new(26)));
    assert!(meeting.to_first.is_some_and(|pass| pass.refusal.is_none()));
    zero.fold(units("0,1,2")).unwrap();
    assert!(meet(&mut two, &mut zero).is_complete());
}
