//! The index: made afresh, kept by the calls, and asked, against the tree and the
//! plain implementation.

use plain::EMPTY_BASE;
use sab::{Date, Identity, Log, Mark, Refusal, Tree, Unit, Wish, meet, raw};
use workload::{Chance, Mix, log_of, vector_of, wish};

const ARCHIVE: u32 = 7;

/// Work memory.
fn work() -> Vec<u8> {
    vec![0xa5; raw::WORK]
}
const DAY: Date = Date::new(2025, 3, 4);

fn refused<T>(number: u8) -> Result<T, Refusal> {
    Err(Refusal::new(number))
}

/// The index of a log by the plain implementation.
fn plainly(log: &[u8]) -> Vec<u8> {
    let mut index = vec![0; raw::INDEX];
    plain::index(log, &EMPTY_BASE, &mut index).unwrap();
    index
}

#[test]
fn afresh() {
    for seed in 0..6 {
        let mix = [Mix::CONFLICTS, Mix::CASES, Mix::MOVES][seed as usize % 3];
        let log = log_of(60 + 90 * seed as usize, 6, 6, &mix, seed);
        let mut index = vec![7; raw::INDEX];
        assert_eq!(raw::index(&log, &EMPTY_BASE, &mut index, &mut work()), Ok(()));
        assert!(index == plainly(&log));
    }
    let mut index = vec![7; raw::INDEX];
    assert_eq!(raw::index(&[7; raw::LOG], &EMPTY_BASE, &mut index, &mut work()), refused(19));
    assert_eq!(raw::index(&[0; raw::LOG - 1], &EMPTY_BASE, &mut index, &mut work()), refused(1));
    assert_eq!(raw::index(&[0; raw::LOG], &EMPTY_BASE, &mut index[1..], &mut work()), refused(1));
    assert_eq!(raw::index(&[0; raw::LOG], &EMPTY_BASE, &mut [], &mut work()), refused(1));
    assert!(index.iter().all(|byte| *byte == 7));
    assert_eq!(raw::index(&[0; raw::LOG], &EMPTY_BASE, &mut index, &mut work()), Ok(()));
    assert!(index.iter().all(|byte| *byte == 0));
}

/// Every call that changes a log refuses an index of another length before all
/// else, and leaves both as they were.
#[test]
fn lengths() {
    let before = log_of(20, 2, 6, &Mix::BENCH, 1);
    for length in [1, 512, raw::INDEX - 1, raw::INDEX + 1] {
        let (mut log, mut index) = (before.clone(), vec![7; length]);
        assert_eq!(raw::start(&mut log, &mut EMPTY_BASE.clone(), &mut index, ARCHIVE, 8), refused(1));
        assert_eq!(raw::act(&mut log, &EMPTY_BASE, &mut index, ARCHIVE, 8, &[], &mut work()), refused(1));
        assert_eq!(raw::take(&mut log, &EMPTY_BASE, &mut index, ARCHIVE, 8, &[], &mut work()), refused(1));
        let row = raw::take_row(&mut log, &EMPTY_BASE, &mut index, ARCHIVE, 8, &[0], &mut work());
        assert_eq!(row, refused(1));
        assert_eq!(raw::find(&index, 0, 0, &[0; 32]), refused(1));
        assert_eq!(raw::list(&index, 0, 0), refused(1));
        assert!(log == before && index == vec![7; length]);
    }
    let index = vec![0; raw::INDEX];
    for (unit, number) in [(0, 0), (8, 0), (256, 1), (0, 65_537), (u32::MAX, u32::MAX)] {
        assert_eq!(raw::find(&index, unit, number, &[0; 32]), Ok(None));
        let none = raw::Range { first: 0, count: 0 };
        assert_eq!(raw::list(&index, unit, number), Ok(none));
    }
    for length in [0, 31, 33] {
        assert_eq!(raw::find(&index, 0, 0, &vec![0; length]), refused(1));
    }
    let mut log = vec![7; raw::LOG];
    let mut index = vec![7; raw::INDEX];
    assert_eq!(raw::start(&mut log, &mut EMPTY_BASE.clone(), &mut index, ARCHIVE, 8), refused(21));
    assert!(index.iter().all(|byte| *byte == 7));
    assert_eq!(raw::start(&mut log, &mut EMPTY_BASE.clone(), &mut index, ARCHIVE, 7), Ok(()));
    assert!(index.iter().all(|byte| *byte == 0));
}

/// Acts and takes of eight units: the index is the one made afresh, refused or
/// not, and the log is the same without one.
#[test]
fn kept() {
    let mut chance = Chance::new(5);
    let mut logs = vec![vec![0; raw::LOG]; 8];
    let mut indexes = vec![vec![0; raw::INDEX]; 8];
    for _ in 0..1500 {
        let unit = chance.below(8);
        let mut tree = [0; plain::TREE];
        plain::show(&logs[unit], &EMPTY_BASE, &mut tree).unwrap();
        let mut wish = wish(&mut chance, &Mix::MOVES, unit as u8, &tree);
        if chance.one_in(8) {
            wish[chance.below(80)] ^= 1;
        }
        let mut alone = logs[unit].clone();
        let (log, index) = (&mut logs[unit], &mut indexes[unit]);
        let done = raw::act(log, &EMPTY_BASE, index, ARCHIVE, unit as u32, &wish, &mut work());
        assert_eq!(
            done,
            raw::act(&mut alone, &EMPTY_BASE, &mut [], ARCHIVE, unit as u32, &wish, &mut work())
        );
        assert!(*log == alone && *index == plainly(log));
        if chance.one_in(5) {
            let (from, to) = (chance.below(8), chance.below(8));
            let mut row = vec![0; raw::FILE];
            let asked = vector_of(&logs[to]);
            let blocks = raw::hand_out_row(&logs[from], &EMPTY_BASE, ARCHIVE, from as u32, &asked, &mut row);
            row.truncate(raw::BLOCK * usize::from(blocks.unwrap()));
            if chance.one_in(4) && !row.is_empty() {
                let at = chance.below(row.len());
                row[at] ^= 1;
            }
            let (log, index) = (&mut logs[to], &mut indexes[to]);
            if chance.one_in(2) {
                raw::take_row(log, &EMPTY_BASE, index, ARCHIVE, to as u32, &row, &mut work()).unwrap();
            } else if let Some(block) = row.chunks(raw::BLOCK).next() {
                let _ = raw::take(log, &EMPTY_BASE, index, ARCHIVE, to as u32, block, &mut work());
            }
            assert!(*index == plainly(log));
        }
    }
}

/// Every entry is found by its folder and label, in capitals and in small letters,
/// and every folder lists exactly its entries by label.
fn agrees(log: &Log, tree: &Tree) {
    let index = log.index().unwrap();
    assert_eq!(*index, log.make_index().unwrap());
    assert_eq!(index.entries().len(), tree.entries().len());
    let folders = tree.entries().map(|entry| entry.identity());
    for folder in folders.chain([Identity::ROOT]) {
        let mut inside: Vec<(&str, Identity)> = tree
            .entries_in(folder)
            .map(|entry| (entry.label(), entry.identity()))
            .collect();
        inside.sort_by_key(|(label, _)| label.to_ascii_lowercase());
        let listed: Vec<(&str, Identity)> = index
            .entries_in(folder)
            .map(|entry| (entry.label(), entry.identity()))
            .collect();
        assert_eq!(listed, inside);
        assert!(
            index
                .entries_in(folder)
                .all(|entry| entry.folder() == folder)
        );
        for (label, identity) in inside {
            let others = [label.to_ascii_uppercase(), label.to_ascii_lowercase()];
            for label in [label, &others[0], &others[1]] {
                assert_eq!(index.find(folder, label), Some(identity));
                let found = tree.find(folder, label).map(|entry| entry.identity());
                assert_eq!(found, Some(identity));
            }
            let behind = format!("{label}~");
            let found = tree.find(folder, &behind).map(|entry| entry.identity());
            assert_eq!(index.find(folder, &behind), found);
        }
    }
}

#[test]
fn looked_up() {
    let bytes = log_of(300, 5, 6, &Mix::BENCH, 11);
    let mut log = Log::from_bytes(ARCHIVE, Unit::ALL[3], &bytes, &EMPTY_BASE).unwrap();
    assert!(log.index().is_none());
    log.keep_index().unwrap();
    agrees(&log, &log.show().unwrap());
    let index = log.index().unwrap();
    let strange: Identity = "7.65535".parse().unwrap();
    assert_eq!(index.entries_in(strange).len(), 0);
    assert_eq!(index.find(strange, "A"), None);
    for label in ["", "A\0", "\0", "123456789012345678901234567890123"] {
        assert_eq!(index.find(Identity::ROOT, label), None);
    }
}

/// A label is the same in any case, kept as written, and its own entry may be
/// renamed to it.
#[test]
fn any_case() {
    let mut log = Log::start(ARCHIVE, Unit::ALL[0]);
    log.keep_index().unwrap();
    let folder = |label| Wish::make_folder(Identity::ROOT, label, DAY).unwrap();
    let bench = log.act(&folder("Bench")).unwrap();
    let brackets = log.act(&folder("[A]")).unwrap();
    for label in ["BENCH", "bench", "[a]"] {
        assert_eq!(log.act(&folder(label)), refused(15));
    }
    let braces = log.act(&folder("{A}")).unwrap();
    let rename = |entry, label| Wish::rename(entry, label, DAY).unwrap();
    assert_eq!(log.act(&rename(brackets, "bench")), refused(15));
    for label in ["bENCH", "bENCH"] {
        let last = log.act(&rename(bench, label)).unwrap();
        let tree = log.show().unwrap();
        let entry = tree.entry(bench).unwrap();
        assert_eq!((entry.label(), entry.last_place()), (label, last));
    }
    let index = log.index().unwrap();
    let listed: Vec<Identity> = index
        .entries_in(Identity::ROOT)
        .map(|entry| entry.identity())
        .collect();
    assert_eq!(listed, [brackets, bench, braces]);
    agrees(&log, &log.show().unwrap());
}

#[test]
fn meetings_keep_it() {
    let mut first = Log::start(ARCHIVE, Unit::ALL[0]);
    let mut second = Log::start(ARCHIVE, Unit::ALL[1]);
    first.keep_index().unwrap();
    second.keep_index().unwrap();
    let bench = first
        .act(&Wish::make_folder(Identity::ROOT, "Bench", DAY).unwrap())
        .unwrap();
    assert!(meet(&mut first, &mut second).is_complete());
    for (log, label) in [(&mut first, "Gain"), (&mut second, "Gain")] {
        let wish = Wish::make_trace(bench, label, DAY, Mark([3; 16])).unwrap();
        log.act(&wish).unwrap();
        assert_eq!(log.act(&wish), refused(15));
    }
    let trial = second
        .try_row(first.hand_out_row(&second.vector().unwrap()).unwrap())
        .unwrap();
    assert!(trial.log.index().is_some());
    assert!(meet(&mut first, &mut second).is_complete());
    assert_eq!(first.index(), second.index());
    assert_eq!(trial.log.index(), second.index());
    agrees(&first, &first.show().unwrap());
    assert_eq!(first.clone().held_by(Unit::ALL[2]).index(), first.index());
}
