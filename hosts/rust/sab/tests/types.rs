//! The types around the calls: what they read, write and refuse, and what the
//! iterators show, against the listing of the library itself.

use plain::EMPTY_BASE;
use sab::{
    Comparison, Date, Identity, Kind, Log, Mark, Operation, Refusal, Unit, Vector, Wish,
    blocks_for, in_words, raw,
};
use std::error::Error;
use workload::{Mix, log_of};

const DATE: Date = Date::new(2025, 3, 4);
const MARK: Mark = Mark([0x1f; 16]);

fn unit(number: u32) -> Unit {
    Unit::try_from(number).unwrap()
}

fn identity(text: &str) -> Identity {
    text.parse().unwrap()
}

/// A log with every operation, and with records that stand aside.
fn a_log() -> Log {
    let bytes = log_of(200, 5, 6, &Mix::MOVES, 11);
    Log::from_bytes(9, unit(3), &bytes, &EMPTY_BASE).unwrap()
}

#[test]
fn units() {
    for number in 0..8 {
        assert_eq!(unit(number).number() as u32, number);
        assert_eq!(unit(number).to_string().parse(), Ok(unit(number)));
    }
    for number in [8, 255, 256, 65_537, u32::MAX] {
        assert_eq!(Unit::try_from(number), Err(Refusal::new(21)));
    }
    for text in ["", "8", "-1", "+1", " 1", "1.0"] {
        assert!(text.parse::<Unit>().is_err(), "{text}");
    }
}

#[test]
fn identities() {
    assert_eq!(identity("3.17").to_string(), "3.17");
    assert_eq!(format!("{:>8}", identity("7.65535")), " 7.65535");
    assert_eq!(identity("0.0"), Identity::ROOT);
    assert!(Identity::ROOT.is_root() && !identity("0.1").is_root());
    assert_eq!(Identity::new(unit(0), 0), None);
    for text in ["", ".", "3", "3.", ".1", "8.1", "3.0", "3.65536", "3.1.1"] {
        assert!(text.parse::<Identity>().is_err(), "{text}");
    }
}

#[test]
fn vectors() {
    let low = Vector::from([1, 2, 3, 4, 5, 6, 7, 8]);
    let high = Vector::from([1, 2, 3, 4, 5, 6, 7, 65_535]);
    let other = Vector::from([9, 0, 0, 0, 0, 0, 0, 0]);
    assert_eq!(low.compare(&low), Comparison::Identical);
    assert_eq!(high.compare(&low), Comparison::FirstAhead);
    assert_eq!(low.compare(&high), Comparison::SecondAhead);
    assert_eq!(low.compare(&other), Comparison::BothAhead);
    let distance = low.distance(&other);
    assert_eq!(distance.comparison, Comparison::BothAhead);
    assert_eq!((distance.first_lacks, distance.second_lacks), (8, 35));
    assert_eq!([0, 1, 6, 7, 512].map(blocks_for), [0, 1, 1, 2, 86]);
    assert!(low.covers(&low) && high.covers(&low));
    assert!(!low.covers(&high) && !low.covers(&other));
    assert_eq!(low.joined(&other).counts(), &[9, 2, 3, 4, 5, 6, 7, 8]);
    assert_eq!(low.lowered().counts(), &[0, 1, 2, 3, 4, 5, 6, 7]);
    assert_eq!(Vector::default().lowered(), Vector::default());
    assert_eq!(high.sum(), 28 + 65_535);
    assert_eq!(high[unit(7)], 65_535);
    assert!(low.lacks(identity("7.9")) && !low.lacks(identity("7.8")));
    assert_eq!(Vector::from_bytes(&high.to_bytes()), high);
    assert_eq!(high.to_bytes()[14..], [0xff, 0xff]);
    assert_eq!(high.to_string().parse(), Ok(high));
    for text in ["", "1 2 3", "1 2 3 4 5 6 7 65536", "1 2 3 4 5 6 7 8 9"] {
        assert!(text.parse::<Vector>().is_err(), "{text}");
    }
}

#[test]
fn dates_and_marks() {
    assert_eq!("2025-03-04".parse(), Ok(DATE));
    assert_eq!(DATE.to_string(), "2025-03-04");
    for text in [
        "2025-3-4",
        "2025-03",
        "2025-03-04-",
        "20a5-03-04",
        "+025-03-04",
    ] {
        assert!(text.parse::<Date>().is_err(), "{text}");
    }
    assert_eq!("1F".repeat(16).parse(), Ok(MARK));
    assert_eq!(MARK.to_string(), "1f".repeat(16));
    for text in ["", "1f", &"1f".repeat(17), &"1g".repeat(16)] {
        assert!(text.parse::<Mark>().is_err(), "{text}");
    }
}

#[test]
fn refusals() {
    for number in (1..=21).chain([24]) {
        let refusal = Refusal { number, place: 2 };
        let text = refusal.to_string();
        assert_eq!(text, format!("refused {number} at 2: {}", in_words(number)));
        assert_ne!(in_words(number), in_words(22));
    }
    assert!(Refusal::new(4).is_damage() && !Refusal::new(10).is_damage());
    assert!(Refusal::new(20).has_place() && !Refusal::new(21).has_place());
    assert!(Refusal::new(24).has_place());
    let error: Box<dyn Error> = Refusal::new(6).into();
    assert_eq!(
        error.to_string(),
        "refused 6: the block is of another archive"
    );
}

/// Every operation, as the record that it makes.
#[test]
fn wishes() {
    let mut log = Log::start(9, unit(5));
    let folder = Wish::make_folder(Identity::ROOT, "Bench", DATE).unwrap();
    let folder = log.act(&folder).unwrap();
    let trace = Wish::make_trace(folder, "Gain", DATE, MARK).unwrap();
    let trace = log.act(&trace).unwrap();
    assert_eq!((folder, trace), (identity("5.1"), identity("5.2")));
    let later = Date::new(2199, 12, 31);
    let wishes = [
        Wish::store(trace, later, Mark([0; 16])),
        Wish::rename(trace, &"x".repeat(32), DATE).unwrap(),
        Wish::move_to(trace, Identity::ROOT, "Gain B", DATE).unwrap(),
        Wish::remove(trace, later),
    ];
    for (wish, number) in wishes.iter().zip(3..) {
        assert_eq!(log.act(wish), Ok(Identity::new(unit(5), number).unwrap()));
    }
    let records: Vec<_> = log.records().collect();
    let [made, traced, stored, renamed, moved, removed] = records[..] else {
        panic!("six records");
    };
    assert_eq!(made.operation(), Operation::MakeFolder);
    assert_eq!((made.folder(), made.object()), (Some(Identity::ROOT), None));
    assert_eq!((made.label(), made.mark()), (Some("Bench"), None));
    assert_eq!(traced.operation(), Operation::MakeTrace);
    assert_eq!((traced.folder(), traced.mark()), (Some(folder), Some(MARK)));
    assert_eq!(stored.operation(), Operation::Store);
    assert_eq!((stored.object(), stored.folder()), (Some(trace), None));
    assert_eq!((stored.date(), stored.mark()), (later, Some(Mark([0; 16]))));
    assert_eq!(stored.label(), None);
    assert_eq!(renamed.operation(), Operation::Rename);
    assert_eq!(renamed.label(), Some(&*"x".repeat(32)));
    assert_eq!(renamed.mark(), None);
    assert_eq!((moved.operation(), moved.operation().number()), (Operation::Move, 7));
    assert_eq!(moved.object(), Some(trace));
    assert_eq!(moved.folder(), Some(Identity::ROOT));
    assert_eq!((moved.label(), moved.mark()), (Some("Gain B"), None));
    assert_eq!(removed.operation(), Operation::Remove);
    assert_eq!((removed.object(), removed.unit()), (Some(trace), unit(5)));
    assert_eq!(removed.seen(), Vector::from([0, 0, 0, 0, 0, 5, 0, 0]));
}

/// Moves: what the tree shows of them, and each number that refuses one.
#[test]
fn moves() {
    let mut log = Log::start(9, unit(5));
    log.keep_index().unwrap();
    let folder = |inside, label| Wish::make_folder(inside, label, DATE).unwrap();
    let a = log.act(&folder(Identity::ROOT, "A")).unwrap();
    let b = log.act(&folder(a, "B")).unwrap();
    let gain = Wish::make_trace(b, "Gain", DATE, MARK).unwrap();
    let gain = log.act(&gain).unwrap();
    let before = log.clone();
    let mut moved = |entry, folder, label: &str| {
        log.act(&Wish::move_to(entry, folder, label, DATE).unwrap())
    };
    // A folder cannot go into itself, nor below itself; a trace is no folder.
    assert_eq!(moved(a, a, "A"), Err(Refusal::new(25)));
    assert_eq!(moved(a, b, "A"), Err(Refusal::new(25)));
    assert_eq!(moved(gain, gain, "Gain"), Err(Refusal::new(14)));
    assert_eq!(moved(b, Identity::ROOT, "a"), Err(Refusal::new(15)));
    assert_eq!(moved(b, Identity::ROOT, "A/B"), Err(Refusal::new(24)));
    assert_eq!(moved(Identity::ROOT, a, "A"), Err(Refusal::new(7)));
    assert_eq!(moved(identity("5.4"), a, "A"), Err(Refusal::new(7)));
    // To another folder, to the own place, and a folder with what is in it.
    let out = moved(gain, Identity::ROOT, "Gain").unwrap();
    let stays = moved(gain, Identity::ROOT, "GAIN").unwrap();
    assert_eq!(moved(gain, b, "Gain"), Ok(identity("5.6")));
    assert_eq!(moved(b, Identity::ROOT, "B"), Ok(identity("5.7")));
    assert_eq!((out, stays), (identity("5.4"), identity("5.5")));
    assert_eq!(log.records().len(), before.records().len() + 4);
    let tree = log.show().unwrap();
    let entry = tree.entry(gain).unwrap();
    assert_eq!((entry.folder(), entry.label()), (b, "Gain"));
    assert_eq!(entry.last_place(), identity("5.6"));
    assert_eq!(entry.last_contents(), gain);
    assert_eq!(tree.entry(b).unwrap().folder(), Identity::ROOT);
    assert_eq!(tree.entries_in(a).count(), 0);
    let index = log.index().unwrap();
    assert_eq!(index.find(b, "gain"), Some(gain));
    assert_eq!(index.find(Identity::ROOT, "gain"), None);
    assert_eq!(index.find(Identity::ROOT, "b"), Some(b));
    assert_eq!(log.act(&Wish::remove(a, DATE)), Ok(identity("5.8")));
    // A folder that is gone, and an entry that is gone.
    let into = Wish::move_to(b, a, "B", DATE).unwrap();
    assert_eq!(log.act(&into), Err(Refusal::new(13)));
    let gone = Wish::move_to(a, b, "A", DATE).unwrap();
    assert_eq!(log.act(&gone), Err(Refusal::new(12)));
    let words = "refused 25: a folder would be put into itself or below itself";
    assert_eq!(Refusal::new(25).to_string(), words);
}

#[test]
fn refused_wishes() {
    let mut log = Log::start(9, unit(5));
    let before = log.clone();
    let make = |label: &str, date| Wish::make_folder(Identity::ROOT, label, date);
    assert_eq!(make(&"x".repeat(33), DATE), Err(Refusal::new(7)));
    assert_eq!(make("x\0", DATE), Err(Refusal::new(7)));
    for label in ["", " x", "x ", "\u{e9}", "x\u{7f}"] {
        let wish = make(label, DATE).unwrap();
        assert_eq!(log.act(&wish), Err(Refusal::new(7)), "{label}");
    }
    let wish = make("x", Date::new(2025, 2, 29)).unwrap();
    assert_eq!(log.act(&wish), Err(Refusal::new(7)));
    assert_eq!(
        log.act(&Wish::remove(identity("5.1"), DATE)),
        Err(Refusal::new(7))
    );
    assert_eq!(log, before);
    log.act(&make("x", DATE).unwrap()).unwrap();
    let settle = Wish::settle(identity("5.1"), DATE);
    assert_eq!(log.act(&settle), Err(Refusal::new(18)));
    assert_eq!(log.act(&make("x", DATE).unwrap()), Err(Refusal::new(15)));
}

/// What the iterators show is what the library lists.
#[test]
fn listed() {
    let log = a_log();
    let tree = log.show().unwrap();
    let disputed = |is: bool| if is { " disputed" } else { "" };
    let mut lines = vec![
        format!("archive 9 unit 3 records {}", log.vector().unwrap().sum()),
        format!("seen {}", log.vector().unwrap()),
    ];
    lines.extend(tree.entries().map(|entry| {
        let label = entry.label().replace('\\', "\\\\").replace('"', "\\\"");
        let (identity, folder, date) = (entry.identity(), entry.folder(), entry.date());
        let dispute = disputed(entry.is_disputed());
        match (entry.kind(), entry.mark()) {
            (Kind::Folder, None) => {
                format!("folder {identity} in {folder} \"{label}\" {date}{dispute}")
            }
            (Kind::Trace, Some(mark)) => {
                format!("trace {identity} in {folder} \"{label}\" {date} {mark}{dispute}")
            }
            other => panic!("{other:?}"),
        }
    }));
    lines.extend(tree.asides().map(|aside| {
        let marks = aside.marks().map_or("-".to_string(), |it| it.to_string());
        let state = if aside.is_open() { "open" } else { "settled" };
        let (identity, reason) = (aside.identity(), aside.reason());
        format!("aside {identity} reason {reason} marks {marks} {state}")
    }));
    assert!(tree.entries().len() > 10 && tree.asides().len() > 10);
    assert_eq!(log.listing().unwrap(), lines.join("\n") + "\n");
}

/// The records say what the tree shows of them.
#[test]
fn records_and_entries() {
    let log = a_log();
    let tree = log.show().unwrap();
    assert_eq!(log.records().len() as u32, log.vector().unwrap().sum());
    let mut counts = [0; 8];
    for record in log.records() {
        counts[record.unit().number() as usize] += 1;
        assert_eq!(
            record.identity().number(),
            counts[record.unit().number() as usize]
        );
        assert_eq!(log.record(record.identity()), Some(record));
    }
    assert_eq!(log.vector(), Ok(Vector::from(counts)));
    assert_eq!(log.record(identity("7.1")), None);
    for entry in tree.entries() {
        let made = log.record(entry.identity()).unwrap();
        let contents = log.record(entry.last_contents()).unwrap();
        let placed = log.record(entry.last_place()).unwrap();
        assert!(made.operation().is_make());
        if placed.operation() != Operation::Rename {
            assert_eq!(placed.folder(), Some(entry.folder()));
        }
        assert_eq!(contents.date(), entry.date());
        assert_eq!(placed.label(), Some(entry.label()));
        assert_eq!(tree.find(entry.folder(), entry.label()), Some(entry));
        assert!(tree.entries_in(entry.folder()).any(|other| other == entry));
    }
    assert_eq!(tree.entry(identity("7.1")), None);
    let settled: Vec<_> = log
        .records()
        .filter(|record| record.operation() == Operation::Settle)
        .filter(|record| {
            tree.asides()
                .all(|aside| aside.identity() != record.identity())
        })
        .filter_map(|record| record.object())
        .collect();
    assert!(!settled.is_empty());
    for aside in tree.asides() {
        assert_eq!(aside.is_open(), !settled.contains(&aside.identity()));
    }
}

#[test]
fn stored_logs() {
    let log = a_log();
    assert_eq!(Log::from_bytes(9, unit(3), log.as_bytes(), &EMPTY_BASE), Ok(log.clone()));
    let mut bytes = log.as_bytes().to_vec();
    bytes[1] = 0;
    assert_eq!(Log::from_bytes(9, unit(3), &bytes, &EMPTY_BASE), Err(Refusal::new(19)));
    assert_eq!(
        Log::from_bytes(9, unit(3), &bytes[1..], &EMPTY_BASE),
        Err(Refusal::new(1))
    );
    let mut file = log.write_file().unwrap();
    let read = Log::read_file(&file).unwrap();
    assert_eq!((read.archive(), read.unit()), (9, unit(3)));
    assert_eq!(read, log);
    assert_ne!(read.clone().held_by(unit(4)), log);
    assert_eq!(read.held_by(unit(4)).as_bytes(), log.as_bytes());
    file[raw::BLOCK + 40] ^= 1;
    let damaged = Refusal {
        number: 4,
        place: 1,
    };
    assert_eq!(Log::read_file(&file), Err(damaged));
}
