//! The plain index against one gathered and sorted from the tree table, and its
//! look-ups against the words of docs/FORMAT.md, taken slowly.

use plain::{BLOCK, EMPTY_BASE, ENTRY_ROW, INDEX, LOG, TREE};
use workload::{Chance, Mix, Units, log_of, vector_of, wish};

const ROW: usize = 40;
const MIXES: [Mix; 4] = [Mix::BENCH, Mix::CONFLICTS, Mix::CASES, Mix::MOVES];

/// What of a label counts.
fn folded(label: &[u8]) -> Vec<u8> {
    let fold = |byte: &u8| match byte {
        b'A'..=b'Z' => byte + 32,
        _ => *byte,
    };
    label.iter().map(fold).collect()
}

/// The index of a log: the rows of its tree, sorted.
fn sorted(log: &[u8]) -> Vec<u8> {
    let mut tree = [0; TREE];
    plain::show(log, &EMPTY_BASE, &mut tree).expect("a sound log");
    let count = usize::from(u16::from_le_bytes([tree[0], tree[1]]));
    let mut rows: Vec<Vec<u8>> = tree[4..]
        .chunks(ENTRY_ROW)
        .take(count)
        .map(|row| [&row[8..12], &row[24..56], &row[4..8]].concat())
        .collect();
    rows.sort_by_key(|row| {
        let number = u16::from_le_bytes([row[2], row[3]]);
        (row[0], number, folded(&row[4..36]))
    });
    let mut index = vec![tree[0], tree[1], 0, 0];
    index.extend(rows.concat());
    index.resize(INDEX, 0);
    index
}

fn row(index: &[u8], at: usize) -> &[u8] {
    &index[4 + ROW * at..][..ROW]
}

/// Unit and number as one number, and the unit apart from it.
fn name(identity: &[u8]) -> u64 {
    8 * u64::from(u16::from_le_bytes([identity[2], identity[3]])) + u64::from(identity[0])
}

fn key(name: u64) -> u64 {
    (name % 8) * (1 << 29) + name / 8
}

/// Of the rows from low on and below high the first that p does not hold of, by
/// so many halvings at the most.
fn halved(p: &dyn Fn(usize) -> bool, left: usize, low: usize, high: usize) -> usize {
    if left == 0 || low >= high {
        return low;
    }
    let middle = low + (high - low) / 2;
    if p(middle) {
        halved(p, left - 1, middle + 1, high)
    } else {
        halved(p, left - 1, low, middle)
    }
}

fn seek(index: &[u8], folder: u64, label: &[u8]) -> usize {
    let before = |at: usize| {
        let row = row(index, at);
        (key(name(row)), folded(&row[4..36])) < (folder, folded(label))
    };
    halved(&before, 11, 0, rows(index))
}

fn rows(index: &[u8]) -> usize {
    usize::from(u16::from_le_bytes([index[0], index[1]])).min(1024)
}

/// What looking up answers in any bytes.
fn find(index: &[u8], folder: &[u8], label: &[u8]) -> u64 {
    let at = seek(index, key(name(folder)), label);
    if at >= rows(index) {
        return 0;
    }
    let row = row(index, at);
    match name(row) == name(folder) && folded(&row[4..36]) == folded(label) {
        true => name(&row[36..]),
        false => 0,
    }
}

/// What listing answers in any bytes.
fn list(index: &[u8], folder: &[u8]) -> (usize, usize) {
    let first = seek(index, key(name(folder)), &[0; 32]);
    let end = seek(index, key(name(folder)) + 1, &[0; 32]);
    (first, end.saturating_sub(first))
}

/// The unit and the number in four bytes.
fn pair(identity: &[u8]) -> (u32, u32) {
    let number = u16::from_le_bytes([identity[2], identity[3]]);
    (identity[0].into(), number.into())
}

/// Asks for the folder in four bytes; a unit above 7 is none.
fn asked(index: &[u8], folder: &[u8], label: &[u8]) {
    let (unit, number) = pair(folder);
    let found = plain::find(index, unit, number, label).expect("lengths");
    let range = plain::list(index, unit, number).expect("lengths");
    if unit > 7 {
        assert_eq!(found, None);
        assert_eq!((usize::from(range.first), range.count), (rows(index), 0));
        return;
    }
    let expected = find(index, folder, label);
    let expected = ((expected % 8) as u8, (expected / 8) as u16);
    assert_eq!(found.unwrap_or((0, 0)), expected);
    assert_eq!(
        (range.first.into(), range.count.into()),
        list(index, folder)
    );
}

#[test]
fn afresh() {
    for seed in 0..12 {
        let mix = MIXES[seed as usize % 4];
        let log = log_of(100 + 34 * seed as usize, 5, 6, &mix, seed);
        let mut index = vec![7; INDEX];
        plain::index(&log, &EMPTY_BASE, &mut index).expect("a sound log");
        assert!(index == sorted(&log), "seed {seed}");
    }
}

/// Acts, takes and rows of eight units, each with its index; a stale one is not
/// mended by a refusal.
#[test]
fn kept() {
    let mut accepted = 0;
    for seed in 0..24 {
        let mut chance = Chance::new(100 + seed);
        let mix = MIXES[seed as usize % 4];
        let mut logs = vec![vec![0; LOG]; 8];
        let mut indexes = vec![vec![0; INDEX]; 8];
        for _ in 0..300 {
            let unit = chance.below(8);
            let (log, index) = (&mut logs[unit], &mut indexes[unit]);
            let before = (log.clone(), index.clone());
            let mut tree = [0; TREE];
            plain::show(log, &EMPTY_BASE, &mut tree).expect("a sound log");
            let mut wish = wish(&mut chance, &mix, unit as u8, &tree);
            if chance.one_in(8) {
                wish[chance.below(80)] ^= 1;
            }
            let done = plain::act(log, &EMPTY_BASE, index, 7, unit as u8, &wish);
            let mut alone = before.0.clone();
            assert_eq!(done, plain::act(&mut alone, &EMPTY_BASE, &mut [], 7, unit as u8, &wish));
            assert!(alone == *log);
            match done {
                Ok(()) => accepted += 1,
                Err(_) => assert!(before == (log.clone(), index.clone())),
            }
            assert!(*index == sorted(log), "act, seed {seed}");
            if chance.one_in(6) {
                let (from, to) = (chance.below(8), chance.below(8));
                let asked = vector_of(&logs[to]);
                let mut block = [0; BLOCK];
                plain::hand_out(&logs[from], &EMPTY_BASE, 7, from as u8, &asked, &mut block).expect("sound");
                if chance.one_in(4) {
                    block[chance.below(BLOCK)] ^= 1;
                }
                let row = [block; 2].concat();
                let (log, index) = (&mut logs[to], &mut indexes[to]);
                let _ = match chance.one_in(2) {
                    true => plain::take(log, &EMPTY_BASE, index, 7, to as u8, &block),
                    false => plain::take_row(log, &EMPTY_BASE, index, 7, to as u8, &row).map(drop),
                };
                assert!(*index == sorted(log), "take, seed {seed}");
            }
        }
    }
    assert!(accepted > 3000, "{accepted}");
}

#[test]
fn looked_up() {
    let log = log_of(512, 6, 6, &Mix::BENCH, 3);
    let index = sorted(&log);
    let count = rows(&index);
    let mut listed = 0;
    for at in 0..count {
        let row = row(&index, at);
        let (unit, number) = pair(row);
        let found = plain::find(&index, unit, number, &row[4..36]).expect("lengths");
        let (own, own_number) = pair(&row[36..]);
        assert_eq!(found, Some((own as u8, own_number as u16)));
        let mut case = row[4..36].to_vec();
        for byte in case.iter_mut().filter(|byte| byte.is_ascii_alphabetic()) {
            *byte ^= 32;
        }
        assert_eq!(plain::find(&index, unit, number, &case), Ok(found));
        let mut other = row[4..36].to_vec();
        other[31] ^= 1;
        asked(&index, &row[..4], &other);
        asked(&index, &row[36..], &row[4..36]);
        if at == 0 || self::row(&index, at - 1)[..4] != row[..4] {
            let (unit, number) = pair(row);
            let range = plain::list(&index, unit, number).expect("lengths");
            assert_eq!(usize::from(range.first), at);
            listed += usize::from(range.count);
        }
    }
    assert_eq!(listed, count);
    assert!(plain::find(&index[1..], 0, 0, &[0; 32]).is_err_and(|no| no.number == 1));
    assert!(plain::find(&index, 0, 0, &[0; 33]).is_err_and(|no| no.number == 1));
    assert!(plain::list(&[], 0, 0).is_err_and(|no| no.number == 1));
    for (unit, number) in [(8, 0), (256, 1), (0, 65_537), (u32::MAX, u32::MAX)] {
        assert_eq!(plain::find(&index, unit, number, &[0; 32]), Ok(None));
        let range = plain::list(&index, unit, number).expect("lengths");
        assert_eq!((usize::from(range.first), range.count), (count, 0));
    }
}

#[test]
fn any_bytes() {
    let mut chance = Chance::new(9);
    let good = sorted(&log_of(512, 6, 6, &Mix::CASES, 3));
    for round in 0..2000 {
        let mut index = vec![0; INDEX];
        match round % 3 {
            0 => chance.bytes(&mut index),
            1 => {
                // Few values, so that keys meet.
                index.fill_with(|| chance.below(3) as u8);
                index[1] = chance.below(4) as u8;
            }
            _ => {
                index.copy_from_slice(&good);
                for _ in 0..chance.below(40) {
                    let at = chance.below(INDEX);
                    index[at] = chance.number() as u8;
                }
                let count = chance.below(700) as u16;
                index[..2].copy_from_slice(&count.to_le_bytes());
            }
        }
        for _ in 0..8 {
            let mut row = row(&index, chance.below(512)).to_vec();
            asked(&index, &row[..4], &row[4..36]);
            row[4 + chance.below(32)] ^= 32;
            asked(&index, &row[..4], &row[4..36]);
            let folder = [
                chance.below(9) as u8,
                chance.below(2) as u8,
                chance.below(4) as u8,
                0,
            ];
            asked(&index, &folder, &row[4..36]);
        }
    }
}

#[test]
fn lengths() {
    let mut units = Units::empty(1, 7);
    let log = &mut units.logs[0];
    for length in [1, INDEX - 1, INDEX + 1] {
        let mut index = vec![7; length];
        assert!(plain::start(log, &mut EMPTY_BASE.clone(), &mut index, 7, 9).is_err_and(|no| no.number == 1));
        assert!(plain::act(log, &EMPTY_BASE, &mut index, 7, 9, &[]).is_err_and(|no| no.number == 1));
        assert!(plain::take(log, &EMPTY_BASE, &mut index, 7, 9, &[]).is_err_and(|no| no.number == 1));
        assert!(plain::take_row(log, &EMPTY_BASE, &mut index, 7, 9, &[1]).is_err_and(|no| no.number == 1));
        assert!(plain::index(log, &EMPTY_BASE, &mut index).is_err_and(|no| no.number == 1));
        assert_eq!(index, vec![7; length]);
    }
}
