//! One case for each entry point and size of log.

use crate::big::Big;
use crate::exchange::Pair;
use crate::times::clock;
use crate::{deep, hashed};
use library::{Library, REPORT, Trial};
use plain::{BASE, BLOCK, EMPTY_BASE, FILE, INDEX, LOG, RECORD, SAB2_FILE, TREE};
use std::hint::black_box;
use workload::{Chance, Mix, Units, log_of, vector_of};

const ARCHIVE: u32 = 7;
const SIZES: [usize; 5] = [0, 64, 128, 256, 512];

type Run = Box<dyn FnMut(&dyn Library) -> Option<u64>>;

/// A call that is made ready and timed.
pub struct Case {
    pub name: String,
    run: Run,
}

impl Case {
    /// The time of one call, if the implementation has it.
    pub fn run(&mut self, library: &dyn Library) -> Option<u64> {
        (self.run)(library)
    }
}

/// The first records of a log.
fn first(log: &[u8], records: usize) -> Vec<u8> {
    let mut first = log[..RECORD * records].to_vec();
    first.resize(LOG, 0);
    first
}

/// A wish that fits every log: the label is like no other.
fn new_trace() -> [u8; 80] {
    let mut wish = [0; 80];
    wish[1] = 2;
    wish[28..32].copy_from_slice(&[0xe9, 7, 3, 3]);
    wish[32..41].copy_from_slice(b"Gain, new");
    wish[64..].fill(0x11);
    wish
}

/// The cases on the first 0, 64, 128, 256 and 512 records of a full log. An act and a
/// take of six on the full one are timed on all but what they add. Files that are
/// merged have so many records together: both the same, or each unit's half.
pub fn cases(log: &[u8], pair: &Pair, big: &Big) -> Vec<Case> {
    let mut cases = Vec::new();
    for size in SIZES {
        let mut case = |name: &str, run: Run| {
            let name = format!("{name}, {size} records");
            cases.push(Case { name, run });
        };
        let lent = first(log, size);
        case("check of the log", check(lent.clone(), EMPTY_BASE.to_vec()));
        case("start", start(lent.clone()));
        let acting = first(log, size.min(511));
        case("act", act(acting.clone(), With::None, new_trace()));
        case("act with an index", act(acting, With::Index, new_trace()));
        let none = EMPTY_BASE.to_vec();
        case("hand out, six lacking", hand_out(lent.clone(), none.clone(), [0; 8]));
        case(
            "hand out, none lacking",
            hand_out(lent.clone(), none.clone(), vector_of(&lent)),
        );
        let before = size.min(506);
        for (name, with) in [
            ("take, six new", With::None),
            ("take with an index, six new", With::Index),
        ] {
            case(name, take(first(log, before), none.clone(), &first(log, before + 6), with));
        }
        case("hand out a row, all lacking", hand_out_row(lent.clone()));
        case("take a row, the rest", take_row(lent.clone(), log, With::None));
        case(
            "take a row with an index, the rest",
            take_row(lent.clone(), log, With::Index),
        );
        case("try a row, the rest", try_row(lent.clone(), log));
        case("write a file", write_file(lent.clone()));
        case("read a file", read_file(file_of(&lent)));
        case("to SAB2", to_sab2(&lent));
        case("SAB2 back to SAB1", to_sab1(&lent));
        case("merge, the same file", merge([&lent, &lent]));
        let [one, other] = pair.logs().map(|log| first(log, size / 2));
        case("merge, halves", merge([&one, &other]));
        case("show the tree", show(lent.clone()));
        case("check an order", check_order(lent.clone()));
        case("make the index", index(lent.clone(), none));
        case("listing", listing(file_of(&lent)));
    }
    let chosen = hashed::makes(512);
    for (name, run) in [
        ("show the tree, 512 records with moves", show(log_of(512, 8, 6, &Mix::MOVES, 1))),
        ("show the tree, 255 moves 256 deep", show(deep::log(256, 255))),
        ("act, a move 256 deep", act(deep::log(256, 255), With::Index, deep::a_move(256))),
        ("show the tree, folders 512 deep", show(deep::log(512, 0))),
        ("act, a make 512 deep", act(deep::log(511, 0), With::None, deep::a_make(511))),
        ("act, a move 511 deep", act(deep::log(511, 0), With::None, deep::a_move(511))),
        ("show the tree, 512 labels under one hash", show(hashed::log(&chosen))),
        (
            "act, 512 labels under one hash",
            act(hashed::log(&chosen[..511]), With::None, chosen[511]),
        ),
        ("hand out a row of 86 blocks", hand_out_row(log.to_vec())),
        ("take a row of 86 blocks", take_row(vec![0; LOG], log, With::None)),
        ("try a row of 86 blocks", try_row(vec![0; LOG], log)),
    ] {
        let name = name.to_string();
        cases.push(Case { name, run });
    }
    // One unit alone has heard all.
    let alone = log_of(512, 1, 6, &Mix::BENCH, 1);
    for size in SIZES {
        let lent = first(&alone, size);
        cases.push(Case {
            name: format!("fold, {size} records"),
            run: fold(lent, EMPTY_BASE.to_vec(), 1),
        });
    }
    for size in [256, 512] {
        let (log, base) = based(size);
        let acting = first(&log, size.min(511));
        for (name, run) in [
            ("check", check(log.clone(), base.clone())),
            ("act", act_on(acting, base.clone(), With::None, new_trace())),
            ("show the tree", show_on(log.clone(), base.clone())),
            ("write an SAB2 file", write_sab2(log.clone(), base.clone())),
            ("read an SAB2 file", read_file(sab2_of(&log, &base))),
            ("listing", listing(sab2_of(&log, &base))),
            ("fold", fold(log, base, 1)),
        ] {
            let name = format!("{name}, {size} records on 512 folded");
            cases.push(Case { name, run });
        }
    }
    cases.push(Case {
        name: "compare, 1000 times".to_string(),
        run: compare(vector_of(log)),
    });
    for (name, run) in [
        ("look up, 512 entries, 1000 times", find(big, 0)),
        ("look up none, 512 entries, 1000 times", find(big, 1)),
        ("list a folder of 400", list(big)),
    ] {
        let name = name.to_string();
        cases.push(Case { name, run });
    }
    cases
}

/// The calls whose growth is shown, each on so many records of one unit: 1,024 are
/// 512 behind 512 that are folded. All files are SAB2 files. Calls that want nothing
/// folded end at 512.
pub fn growing() -> Vec<(&'static str, usize, Case)> {
    let alone = log_of(512, 1, 6, &Mix::BENCH, 1);
    let mut growing = Vec::new();
    for size in [64, 128, 256, 512, 1024] {
        let (log, base) = match size {
            1024 => based(512),
            _ => (first(&alone, size), EMPTY_BASE.to_vec()),
        };
        let held = size.min(512);
        let of_base = |at: usize| u16::from_le_bytes([base[at], base[at + 1]]);
        let folded = std::array::from_fn(|unit| of_base(8 + 2 * unit));
        let file = sab2_of(&log, &base);
        let mut cases = vec![
            ("act", act_on(first(&log, held.min(511)), base.clone(), With::None, new_trace())),
            ("take, six new", take(first(&log, held - 6), base.clone(), &log, With::None)),
            ("hand out, six lacking", hand_out(log.clone(), base.clone(), folded)),
            ("show the tree", show_on(log.clone(), base.clone())),
            ("make the index", index(log.clone(), base.clone())),
            ("write a file", write_sab2(log.clone(), base.clone())),
            ("read a file", read_file(file.clone())),
            ("listing", listing(file)),
            ("fold", fold(log.clone(), base.clone(), 1)),
        ];
        if size <= 512 {
            cases.push(("take a row of all", take_row(vec![0; LOG], &log, With::None)));
            cases.push(("merge, the same file", merge([&log, &log])));
            cases.push(("check an order", check_order(log)));
        }
        for (call, run) in cases {
            let name = call.to_string();
            growing.push((call, size, Case { name, run }));
        }
    }
    growing
}

/// A take refuses a block of another length right after it has checked the log.
fn check(mut log: Vec<u8>, base: Vec<u8>) -> Run {
    Box::new(move |library| {
        Some(clock(|| {
            let answer = library.take(black_box(&mut log), &base, &mut [], ARCHIVE, 0, &[]);
            assert!(answer.is_err_and(|refusal| refusal.number == 2));
        }))
    })
}

fn start(log: Vec<u8>) -> Run {
    let (mut lent, mut base) = (log.clone(), EMPTY_BASE.to_vec());
    Box::new(move |library| {
        lent.copy_from_slice(&log);
        Some(clock(|| {
            library
                .start(black_box(&mut lent), &mut base, &mut [], ARCHIVE, 0)
                .unwrap()
        }))
    })
}

/// Whether an index is lent.
#[derive(Clone, Copy)]
enum With {
    Index,
    None,
}

/// The index that is lent with a log.
fn index_of(log: &[u8], base: &[u8], with: With) -> Vec<u8> {
    let mut index = vec![0; INDEX];
    match with {
        With::Index => plain::index(log, base, &mut index).expect("a sound log"),
        With::None => index.clear(),
    }
    index
}

fn act(log: Vec<u8>, with: With, wish: [u8; 80]) -> Run {
    act_on(log, EMPTY_BASE.to_vec(), with, wish)
}

fn act_on(log: Vec<u8>, base: Vec<u8>, with: With, wish: [u8; 80]) -> Run {
    let mut lent = log.clone();
    let index = index_of(&log, &base, with);
    let mut listed = index.clone();
    Box::new(move |library| {
        lent.copy_from_slice(&log);
        listed.copy_from_slice(&index);
        Some(clock(|| {
            library
                .act(black_box(&mut lent), &base, &mut listed, ARCHIVE, 0, &wish)
                .unwrap()
        }))
    })
}

fn hand_out(log: Vec<u8>, base: Vec<u8>, asked: [u16; 8]) -> Run {
    let mut block = [0; BLOCK];
    Box::new(move |library| {
        Some(clock(|| {
            library
                .hand_out(black_box(&log), &base, ARCHIVE, 0, &asked, &mut block)
                .unwrap()
        }))
    })
}

fn take(log: Vec<u8>, base: Vec<u8>, other: &[u8], with: With) -> Run {
    let mut block = [0; BLOCK];
    let asked = plain::vector(&log, &base).expect("a sound state");
    plain::hand_out(other, &base, ARCHIVE, 1, &asked, &mut block).expect("a sound state");
    assert_eq!(block[9], 6);
    let mut lent = log.clone();
    let mut index = index_of(&log, &base, with);
    Box::new(move |library| {
        lent.copy_from_slice(&log);
        Some(clock(|| {
            library
                .take(black_box(&mut lent), &base, &mut index, ARCHIVE, 0, &block)
                .unwrap()
        }))
    })
}

fn hand_out_row(log: Vec<u8>) -> Run {
    let mut row = vec![0; FILE];
    Box::new(move |library| {
        Some(clock(|| {
            library
                .hand_out_row(black_box(&log), &EMPTY_BASE, ARCHIVE, 0, &[0; 8], &mut row)
                .unwrap();
        }))
    })
}

/// The row of what a log lacks of another.
fn row_for(log: &[u8], other: &[u8]) -> Vec<u8> {
    let mut row = vec![0; FILE];
    let blocks = plain::hand_out_row(other, &EMPTY_BASE, ARCHIVE, 1, &vector_of(log), &mut row);
    row.truncate(BLOCK * usize::from(blocks.expect("a sound log")));
    row
}

fn take_row(log: Vec<u8>, other: &[u8], with: With) -> Run {
    let row = row_for(&log, other);
    let mut lent = log.clone();
    let mut index = index_of(&log, &EMPTY_BASE, with);
    Box::new(move |library| {
        lent.copy_from_slice(&log);
        Some(clock(|| {
            library
                .take_row(black_box(&mut lent), &EMPTY_BASE, &mut index, ARCHIVE, 0, &row)
                .unwrap();
        }))
    })
}

fn try_row(log: Vec<u8>, other: &[u8]) -> Run {
    let row = row_for(&log, other);
    let mut trial = Trial {
        copy: vec![0; LOG],
        tree: vec![0; TREE],
        report: vec![0; REPORT],
    };
    Box::new(move |library| {
        Some(clock(|| {
            library
                .try_row(black_box(&log), &EMPTY_BASE, ARCHIVE, 0, &row, &mut trial)
                .unwrap();
        }))
    })
}

fn write_file(log: Vec<u8>) -> Run {
    let mut file = vec![0; FILE];
    Box::new(move |library| {
        Some(clock(|| {
            library
                .write_file(black_box(&log), &EMPTY_BASE, ARCHIVE, 0, &mut file)
                .unwrap()
        }))
    })
}

/// The file of a log.
fn file_of(log: &[u8]) -> Vec<u8> {
    let mut file = vec![0; FILE];
    let blocks = plain::write_file(log, &EMPTY_BASE, ARCHIVE, 0, &mut file).expect("a sound log");
    file.truncate(BLOCK * blocks as usize);
    file
}

/// The SAB2 file of a state.
fn sab2_of(log: &[u8], base: &[u8]) -> Vec<u8> {
    let mut file = vec![0; SAB2_FILE];
    let blocks = plain::write_sab2(log, base, ARCHIVE, 0, &mut file).expect("a sound state");
    file.truncate(BLOCK * blocks as usize);
    file
}

fn write_sab2(log: Vec<u8>, base: Vec<u8>) -> Run {
    let mut file = vec![0; SAB2_FILE];
    Box::new(move |library| {
        Some(clock(|| {
            library
                .write_sab2(black_box(&log), black_box(&base), ARCHIVE, 0, &mut file)
                .unwrap()
        }))
    })
}

fn to_sab2(log: &[u8]) -> Run {
    let (file, mut out) = (file_of(log), vec![0; SAB2_FILE]);
    Box::new(move |library| Some(clock(|| library.to_sab2(black_box(&file), &mut out).unwrap())))
}

fn to_sab1(log: &[u8]) -> Run {
    let (file, mut out) = (sab2_of(log, &EMPTY_BASE), vec![0; FILE]);
    Box::new(move |library| Some(clock(|| library.to_sab1(black_box(&file), &mut out).unwrap())))
}

fn read_file(file: Vec<u8>) -> Run {
    let (mut lent, mut base) = (vec![0; LOG], vec![0; BASE]);
    Box::new(move |library| {
        Some(clock(|| {
            library.read_file(&mut lent, &mut base, black_box(&file)).unwrap()
        }))
    })
}

fn merge(logs: [&[u8]; 2]) -> Run {
    let [one, other] = logs.map(file_of);
    let (mut log, mut file) = (vec![0; LOG], vec![0; FILE]);
    Box::new(move |library| {
        Some(clock(|| {
            library
                .merge(black_box(&one), black_box(&other), &mut log, &mut file)
                .unwrap()
        }))
    })
}

fn show(log: Vec<u8>) -> Run {
    show_on(log, EMPTY_BASE.to_vec())
}

fn show_on(log: Vec<u8>, base: Vec<u8>) -> Run {
    let mut tree = vec![0; TREE];
    Box::new(move |library| {
        Some(clock(|| library.show(black_box(&log), black_box(&base), &mut tree).unwrap()))
    })
}

/// Checks an order of which all but the rank is asked: the records by unit where they
/// have not seen each other.
fn check_order(log: Vec<u8>) -> Run {
    let list = by_unit(&log);
    let (mut ours, mut theirs) = (vec![0; TREE], vec![0; TREE]);
    Box::new(move |library| {
        Some(clock(|| {
            let list = black_box(&list);
            library.check_order(black_box(&log), &EMPTY_BASE, list, &mut ours, &mut theirs).unwrap()
        }))
    })
}

/// The names of the records of a log: of those whose seen stand before, one of the
/// lowest unit comes next.
fn by_unit(log: &[u8]) -> Vec<u8> {
    let (records, _) = log.as_chunks::<RECORD>();
    let all: usize = vector_of(log).iter().map(|count| usize::from(*count)).sum();
    let mut left: Vec<&[u8; RECORD]> = records[..all].iter().collect();
    left.sort_by_key(|record| record[0]);
    let (mut had, mut list) = ([0u16; 8], Vec::new());
    while !left.is_empty() {
        let seen = |record: &&[u8; RECORD], unit: usize| {
            u16::from_le_bytes([record[4 + 2 * unit], record[5 + 2 * unit]])
        };
        let is_next = |record: &&[u8; RECORD]| (0..8).all(|unit| seen(record, unit) <= had[unit]);
        let next = left.remove(left.iter().position(is_next).expect("a sound log"));
        had[usize::from(next[0])] += 1;
        list.extend([next[0], 0, next[2], next[3]]);
    }
    list
}

/// Folds by a list.
fn fold(log: Vec<u8>, base: Vec<u8>, list: u8) -> Run {
    let (mut lent, mut left) = (log.clone(), base.clone());
    Box::new(move |library| {
        lent.copy_from_slice(&log);
        left.copy_from_slice(&base);
        Some(clock(|| {
            library.fold(black_box(&mut lent), &mut left, ARCHIVE, 0, list).unwrap();
        }))
    })
}

/// What unit 0, alone in its archive, holds after 512 records that were folded and
/// some that are not.
fn based(records: usize) -> (Vec<u8>, Vec<u8>) {
    let mut units = Units::empty(1, ARCHIVE);
    let mut chance = Chance::new(8);
    let mut make = |units: &mut Units, records: usize| {
        let mut made = 0;
        while made < records {
            made += units.act(&mut chance, &Mix::BENCH, 0) as usize;
        }
    };
    make(&mut units, 512);
    assert_eq!(units.fold(0, 1), Ok(512));
    make(&mut units, records);
    (units.logs.swap_remove(0), units.bases.swap_remove(0))
}

fn index(log: Vec<u8>, base: Vec<u8>) -> Run {
    let mut index = vec![0; INDEX];
    Box::new(move |library| Some(clock(|| library.index(black_box(&log), &base, &mut index).unwrap())))
}

/// Looks up the entries of the big tree, in an order by chance; with another last
/// byte of the label there is none.
fn find(big: &Big, other: u8) -> Run {
    let index = big.index.clone();
    let mut keys = big.keys(1000);
    keys.iter_mut().for_each(|key| key.label[31] ^= other);
    let there = other == 0;
    Box::new(move |library| {
        Some(clock(|| {
            for key in &keys {
                let found = library.find(black_box(&index), key.folder_asked(), &key.label);
                assert_eq!(found.unwrap().is_some(), there);
            }
        }))
    })
}

/// Lists the big folder and reads the entry of every row.
fn list(big: &Big) -> Run {
    let index = big.index.clone();
    Box::new(move |library| {
        let mut read = 0;
        let time = clock(|| {
            let range = library.list(black_box(&index), library::folder_of(&Big::FOLDER)).unwrap();
            let (rows, _) = index[4..].as_chunks::<40>();
            for row in &rows[usize::from(range.first)..][..usize::from(range.count)] {
                black_box(&row[36..]);
                read += 1;
            }
        });
        assert_eq!(read, Big::INSIDE);
        Some(time)
    })
}

fn listing(file: Vec<u8>) -> Run {
    let mut out = vec![0; library::LISTING];
    Box::new(move |library| {
        library.listing_into(&file, &mut out)?;
        Some(clock(|| library.listing_into(black_box(&file), &mut out)))
    })
}

fn compare(vector: [u16; 8]) -> Run {
    let mut other = vector;
    other[7] += 1;
    Box::new(move |library| {
        Some(clock(|| {
            for _ in 0..1000 {
                black_box(library.compare(black_box(&vector), black_box(&other)));
            }
        }))
    })
}
