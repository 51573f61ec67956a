//! The calls over slices against the static library: every call, every buffer of
//! another length, and bytes kept by refusals.

use plain::EMPTY_BASE;
use sab::Refusal;
use sab::raw::{self, BASE, BLOCK, FILE, Head, LISTING, LOG, Listed, REPORT, RowTaken, TREE, WISH};
use workload::{Mix, log_of, vector_of};

const ARCHIVE: u32 = 0xfedc_ba98;

/// Work memory.
fn work() -> Vec<u8> {
    vec![0xa5; raw::WORK]
}

fn refused<T>(number: u8) -> Result<T, Refusal> {
    Err(Refusal { number, place: 0 })
}

/// Bytes that a call must leave.
fn pattern(length: usize) -> Vec<u8> {
    (0..length).map(|i| (17 + 31 * i) as u8).collect()
}

/// Lengths that are wrong for a buffer of a stated length.
fn wrong(stated: usize) -> [Vec<u8>; 4] {
    [0, stated - 1, stated + 1, 2 * stated].map(pattern)
}

fn make_folder(unit: u8, label: &str) -> [u8; WISH] {
    let mut wish = [0; WISH];
    wish[..2].copy_from_slice(&[unit, 1]);
    wish[28..32].copy_from_slice(&[0xe9, 7, 3, 3]);
    wish[32..32 + label.len()].copy_from_slice(label.as_bytes());
    wish
}

fn a_log() -> Vec<u8> {
    log_of(40, 4, 5, &Mix::CONFLICTS, 3)
}

fn file_of(log: &[u8]) -> Vec<u8> {
    let mut file = vec![0; FILE];
    let blocks = raw::write_file(log, &EMPTY_BASE, ARCHIVE, 5, &mut file).unwrap();
    file.truncate(BLOCK * blocks as usize);
    file
}

#[test]
fn starting() {
    let mut log = pattern(LOG);
    assert_eq!(raw::start(&mut log, &mut EMPTY_BASE.clone(), &mut [], ARCHIVE, 8), refused(21));
    assert_eq!(log, pattern(LOG));
    assert_eq!(raw::start(&mut log, &mut EMPTY_BASE.clone(), &mut [], ARCHIVE, 7), Ok(()));
    assert_eq!(log, vec![0; LOG]);
    for mut log in wrong(LOG) {
        let before = log.clone();
        assert_eq!(raw::start(&mut log, &mut EMPTY_BASE.clone(), &mut [], ARCHIVE, 0), refused(1));
        assert_eq!(log, before);
    }
}

#[test]
fn acting() {
    let mut log = vec![0; LOG];
    let wish = make_folder(3, "Bench");
    assert_eq!(raw::act(&mut log, &EMPTY_BASE, &mut [], ARCHIVE, 3, &wish, &mut work()), Ok(()));
    let mut record = wish;
    record[2] = 1;
    assert_eq!(log[..WISH], record);
    assert!(log[WISH..].iter().all(|byte| *byte == 0));
    let before = log.clone();
    assert_eq!(raw::act(&mut log, &EMPTY_BASE, &mut [], ARCHIVE, 3, &wish, &mut work()), refused(15));
    assert_eq!(raw::act(&mut log, &EMPTY_BASE, &mut [], ARCHIVE, 4, &wish, &mut work()), refused(7));
    for at in 32..64 {
        let mut wish = wish;
        wish[32..=at].fill(b'a');
        wish[at] = b'/';
        assert_eq!(raw::act(&mut log, &EMPTY_BASE, &mut [], ARCHIVE, 3, &wish, &mut work()), refused(24));
        wish[31] = 0;
        assert_eq!(raw::act(&mut log, &EMPTY_BASE, &mut [], ARCHIVE, 3, &wish, &mut work()), refused(7));
    }
    assert_eq!(raw::act(&mut log, &EMPTY_BASE, &mut [], ARCHIVE, 200, &wish, &mut work()), refused(21));
    for wish in wrong(WISH) {
        assert_eq!(raw::act(&mut log, &EMPTY_BASE, &mut [], ARCHIVE, 3, &wish, &mut work()), refused(1));
    }
    assert_eq!(log, before);
    for mut log in wrong(LOG) {
        let before = log.clone();
        assert_eq!(raw::act(&mut log, &EMPTY_BASE, &mut [], ARCHIVE, 3, &wish, &mut work()), refused(1));
        assert_eq!(log, before);
    }
    log[1] = 0;
    assert_eq!(raw::act(&mut log, &EMPTY_BASE, &mut [], ARCHIVE, 3, &wish, &mut work()), refused(19));
}

#[test]
fn passing_blocks() {
    let given = a_log();
    let mut log = vec![0; LOG];
    let mut block = pattern(BLOCK);
    loop {
        let asked = vector_of(&log);
        assert_eq!(
            raw::hand_out(&given, &EMPTY_BASE, ARCHIVE, 1, &asked, &mut block),
            Ok(())
        );
        assert_eq!(raw::take(&mut log, &EMPTY_BASE, &mut [], ARCHIVE, 2, &block, &mut []), Ok(()));
        if block[9] == 0 {
            break;
        }
    }
    assert_eq!(log, given);
    assert_eq!(raw::take(&mut log, &EMPTY_BASE, &mut [], ARCHIVE + 1, 2, &block, &mut []), refused(6));
    assert_eq!(raw::take(&mut log, &EMPTY_BASE, &mut [], ARCHIVE, 8, &block, &mut []), refused(21));
    block[100] ^= 1;
    assert_eq!(raw::take(&mut log, &EMPTY_BASE, &mut [], ARCHIVE, 2, &block, &mut []), refused(4));
    for block in wrong(BLOCK) {
        assert_eq!(raw::take(&mut log, &EMPTY_BASE, &mut [], ARCHIVE, 2, &block, &mut []), refused(2));
    }
    assert_eq!(log, given);
    for mut block in wrong(BLOCK) {
        let before = block.clone();
        assert_eq!(
            raw::hand_out(&log, &EMPTY_BASE, ARCHIVE, 1, &[0; 8], &mut block),
            refused(1)
        );
        assert_eq!(block, before);
    }
    for mut log in wrong(LOG) {
        let (before, mut block) = (log.clone(), pattern(BLOCK));
        assert_eq!(
            raw::hand_out(&log, &EMPTY_BASE, ARCHIVE, 1, &[0; 8], &mut block),
            refused(1)
        );
        assert_eq!(raw::take(&mut log, &EMPTY_BASE, &mut [], ARCHIVE, 1, &block, &mut []), refused(1));
        assert!(log == before && block == pattern(BLOCK));
    }
}

/// Every order of a list.
fn orders<T: Copy>(list: &[T]) -> Vec<Vec<T>> {
    let Some((first, rest)) = list.split_first() else {
        return vec![Vec::new()];
    };
    let mut all = Vec::new();
    for order in orders(rest) {
        for place in 0..=order.len() {
            let mut more = order.clone();
            more.insert(place, *first);
            all.push(more);
        }
    }
    all
}

/// Six units that know nothing of each other: a block may have their records in
/// any order, and any of them may be held already.
#[test]
fn records_in_any_order() {
    let records: [[u8; WISH]; 6] = std::array::from_fn(|unit| {
        let mut log = vec![0; LOG];
        let wish = make_folder(unit as u8, "Bench");
        raw::act(&mut log, &EMPTY_BASE, &mut [], ARCHIVE, unit as u32, &wish, &mut work()).unwrap();
        log[..WISH].try_into().unwrap()
    });
    let log_with = |held: &dyn Fn(usize) -> bool| {
        let held: Vec<_> = (0..6).filter(|i| held(*i)).map(|i| records[i]).collect();
        let mut log = held.concat();
        log.resize(LOG, 0);
        log
    };
    let all = log_with(&|_| true);
    let mut block = [0; BLOCK];
    raw::hand_out(&all, &EMPTY_BASE, ARCHIVE, 0, &[0; 8], &mut block).unwrap();
    for order in orders(&records) {
        block[28..508].copy_from_slice(&order.concat());
        let (first, second) = plain::sums(&block);
        block[508..510].copy_from_slice(&first.to_le_bytes());
        block[510..].copy_from_slice(&second.to_le_bytes());
        for held in 0..64 {
            let mut log = log_with(&|i| held >> i & 1 == 1);
            assert_eq!(raw::take(&mut log, &EMPTY_BASE, &mut [], ARCHIVE, 7, &block, &mut []), Ok(()));
            assert!(log == all);
        }
    }
}

#[test]
fn files() {
    let log = a_log();
    let mut file = file_of(&log);
    assert_eq!(file.len(), 7 * BLOCK);
    let mut read = pattern(LOG);
    let head = Head {
        archive: ARCHIVE,
        unit: 5,
        records: 40,
        vector: vector_of(&log),
    };
    assert_eq!(raw::read_file(&mut read, &mut EMPTY_BASE.clone(), &file), Ok(head));
    assert_eq!(read, log);
    let mut kept = pattern(LOG);
    file[3 * BLOCK + 60] ^= 4;
    let bad_sum = Err(Refusal {
        number: 4,
        place: 3,
    });
    assert_eq!(raw::read_file(&mut kept, &mut EMPTY_BASE.clone(), &file), bad_sum);
    for length in [0, 1, 511, 513, FILE + BLOCK] {
        assert_eq!(raw::read_file(&mut kept, &mut EMPTY_BASE.clone(), &pattern(length)), refused(2));
    }
    assert_eq!(kept, pattern(LOG));
    for mut other in wrong(LOG) {
        let (before, mut lent) = (other.clone(), pattern(FILE));
        assert_eq!(raw::read_file(&mut other, &mut EMPTY_BASE.clone(), &file), refused(1));
        assert_eq!(raw::write_file(&other, &EMPTY_BASE, ARCHIVE, 5, &mut lent), refused(1));
        assert!(other == before && lent == pattern(FILE));
    }
    for mut lent in wrong(FILE) {
        let before = lent.clone();
        assert_eq!(raw::write_file(&log, &EMPTY_BASE, ARCHIVE, 5, &mut lent), refused(1));
        assert_eq!(lent, before);
    }
    assert_eq!(
        raw::write_file(&log, &EMPTY_BASE, ARCHIVE, 8, &mut pattern(FILE)),
        refused(21)
    );
}

#[test]
fn trees() {
    let log = a_log();
    let mut tree = pattern(TREE);
    assert_eq!(raw::show(&log, &EMPTY_BASE, &mut tree), Ok(()));
    for mut lent in wrong(TREE) {
        let before = lent.clone();
        assert_eq!(raw::show(&log, &EMPTY_BASE, &mut lent), refused(1));
        assert_eq!(lent, before);
    }
    for log in wrong(LOG) {
        let mut lent = pattern(TREE);
        assert_eq!(raw::show(&log, &EMPTY_BASE, &mut lent), refused(1));
        assert_eq!(lent, pattern(TREE));
    }

    let (mut work, mut base, mut shown) = (pattern(LOG), pattern(BASE), pattern(TREE));
    let mut out = pattern(LISTING);
    let file = file_of(&log);
    let listed = raw::listing(&file, &mut work, &mut base, &mut shown, &mut out).unwrap();
    assert_eq!(listed.refused, None);
    assert!(work == log && base == EMPTY_BASE && shown == tree);
    let text = String::from_utf8(out[..listed.length].to_vec()).unwrap();
    assert!(text.starts_with(&format!("archive {ARCHIVE} unit 5 records 40\nseen ")));
    let rows = u16::from_le_bytes([tree[0], tree[1]]) + u16::from_le_bytes([tree[2], tree[3]]);
    assert_eq!(text.lines().count(), 2 + rows as usize);
    assert_eq!(out[listed.length..], pattern(LISTING)[listed.length..]);
}

#[test]
fn listings_of_refused_files() {
    let mut file = file_of(&a_log());
    file[2 * BLOCK] = b'T';
    let (mut log, mut base, mut tree) = (pattern(LOG), pattern(BASE), pattern(TREE));
    let mut out = pattern(LISTING);
    let expected = Listed {
        length: 15,
        refused: Some(Refusal {
            number: 3,
            place: 2,
        }),
    };
    assert_eq!(
        raw::listing(&file, &mut log, &mut base, &mut tree, &mut out),
        Ok(expected)
    );
    assert_eq!(&out[..15], b"refused 3 at 2\n");
    let nothing = raw::listing(&[], &mut log, &mut base, &mut tree, &mut out).unwrap();
    assert_eq!(nothing.refused.map(|refusal| refusal.number), Some(2));
    assert_eq!(&out[..nothing.length], b"refused 2 at 0\n");
    let kept = |log: &[u8], base: &[u8], tree: &[u8]| {
        log == pattern(LOG) && base == pattern(BASE) && tree == vec![0; TREE]
    };
    assert!(kept(&log, &base, &tree));
    let before = out.clone();
    for mut log in wrong(LOG) {
        let listed = raw::listing(&file, &mut log, &mut base, &mut tree, &mut out);
        assert_eq!(listed, refused(1));
    }
    for mut base in wrong(BASE) {
        let listed = raw::listing(&file, &mut log, &mut base, &mut tree, &mut out);
        assert_eq!(listed, refused(1));
    }
    for mut tree in wrong(TREE) {
        let listed = raw::listing(&file, &mut log, &mut base, &mut tree, &mut out);
        assert_eq!(listed, refused(1));
    }
    for mut out in wrong(LISTING) {
        let listed = raw::listing(&file, &mut log, &mut base, &mut tree, &mut out);
        assert_eq!(listed, refused(1));
    }
    assert!(kept(&log, &base, &tree) && out == before);
}

/// A unit is 32 bits: one whose low byte or low half alone would be a unit is
/// refused by every call that is given one.
#[test]
fn wide_units() {
    let wish = make_folder(0, "Bench");
    for unit in [8, 255, 256, 263, 65_536, 65_537, 0x0100_0000, u32::MAX] {
        let (mut log, mut block, mut file) = (a_log(), pattern(BLOCK), pattern(FILE));
        assert_eq!(raw::start(&mut log, &mut EMPTY_BASE.clone(), &mut [], ARCHIVE, unit), refused(21));
        assert_eq!(raw::act(&mut log, &EMPTY_BASE, &mut [], ARCHIVE, unit, &wish, &mut work()), refused(21));
        assert_eq!(raw::take(&mut log, &EMPTY_BASE, &mut [], ARCHIVE, unit, &block, &mut []), refused(21));
        assert_eq!(
            raw::hand_out(&log, &EMPTY_BASE, ARCHIVE, unit, &[0; 8], &mut block),
            refused(21)
        );
        assert_eq!(raw::write_file(&log, &EMPTY_BASE, ARCHIVE, unit, &mut file), refused(21));
        assert!(log == a_log() && block == pattern(BLOCK) && file == pattern(FILE));
    }
}

#[test]
fn held_vectors() {
    assert_eq!(raw::vector(&vec![0; LOG], &EMPTY_BASE), Ok([0; 8]));
    for records in [1, 40, 512] {
        let log = log_of(records, 8, 5, &Mix::BENCH, 4);
        let vector = raw::vector(&log, &EMPTY_BASE).unwrap();
        assert_eq!(vector, vector_of(&log));
        assert_eq!(vector.iter().sum::<u16>() as usize, records);
        let mut unsound = log;
        unsound[0] = 8;
        assert_eq!(raw::vector(&unsound, &EMPTY_BASE), refused(19));
    }
    for log in wrong(LOG) {
        assert_eq!(raw::vector(&log, &EMPTY_BASE), refused(1));
    }
}

#[test]
fn comparing() {
    let [low, high] = [[1, 2, 3, 4, 5, 6, 7, 8], [1, 2, 3, 4, 5, 6, 7, 65_535]];
    let compared = |first, second| {
        let said = raw::compare(first, second);
        (said.answer, said.first_lacks, said.second_lacks)
    };
    assert_eq!(compared(&low, &low), (0, 0, 0));
    assert_eq!(compared(&high, &low), (1, 0, 65_527));
    assert_eq!(compared(&low, &high), (2, 65_527, 0));
    // What the first has more of unit 0 makes up for nothing.
    let ahead = [9, 0, 0, 0, 0, 0, 0, 0];
    assert_eq!(compared(&ahead, &high), (3, 27 + 65_535, 8));
    // More than 16 bits hold.
    assert_eq!(compared(&[0; 8], &[65_535; 8]), (2, 524_280, 0));
}

#[test]
fn rows() {
    let full = log_of(100, 4, 5, &Mix::CONFLICTS, 3);
    let mut log = vec![0; LOG];
    log[..3200].copy_from_slice(&full[..3200]);
    let held = vector_of(&log);

    // Handing out: as single blocks, one after another.
    let mut row = pattern(FILE);
    let blocks = raw::hand_out_row(&full, &EMPTY_BASE, ARCHIVE, 5, &held, &mut row).unwrap();
    assert_eq!(blocks, 10);
    assert!(row[BLOCK * 10..].iter().all(|byte| *byte == 0));
    let row = row[..BLOCK * 10].to_vec();
    let mut single = log.clone();
    for block in row.chunks(BLOCK) {
        let mut handed = [0; BLOCK];
        raw::hand_out(&full, &EMPTY_BASE, ARCHIVE, 5, &vector_of(&single), &mut handed).unwrap();
        assert_eq!(handed[..], *block);
        raw::take(&mut single, &EMPTY_BASE, &mut [], ARCHIVE, 0, block, &mut []).unwrap();
    }
    assert_eq!(single, full);

    // Trying, then taking; a damaged block stops both.
    let mut damaged = row.clone();
    damaged[BLOCK * 4 + 99] ^= 1;
    for (row, taken, stopped) in [(&row, 10, 0), (&damaged, 4, 4)] {
        let (mut copy, mut tree, mut report) = (pattern(LOG), pattern(TREE), pattern(REPORT));
        let before = log.clone();
        raw::try_row(&log, &EMPTY_BASE, ARCHIVE, 0, row, &mut copy, &mut tree, &mut report).unwrap();
        assert_eq!(log, before);
        assert_eq!(report[..2], [taken, stopped]);
        let mut after = log.clone();
        let answer = raw::take_row(&mut after, &EMPTY_BASE, &mut [], ARCHIVE, 0, row, &mut []);
        assert_eq!(answer, Ok(RowTaken { taken, stopped }));
        assert_eq!(after, copy);
        let mut shown = vec![0; TREE];
        raw::show(&after, &EMPTY_BASE, &mut shown).unwrap();
        assert_eq!(shown, tree);
    }

    // Refusals: 1, 21, 2, 19, and every byte stays.
    let part = &row[..BLOCK + 1];
    let mut unsound = log.clone();
    unsound[1] = 9;
    let try_row = |log: &[u8], unit, row: &[u8], lengths: [usize; 3]| {
        let lent = lengths.map(pattern);
        let [mut copy, mut tree, mut report] = lent.clone();
        let answer = raw::try_row(log, &EMPTY_BASE, ARCHIVE, unit, row, &mut copy, &mut tree, &mut report);
        assert_eq!([copy, tree, report], lent);
        answer
    };
    let right = [LOG, TREE, REPORT];
    for at in 0..3 {
        let mut lengths = right;
        lengths[at] += 1;
        assert_eq!(try_row(&unsound, 8, part, lengths), refused(1));
    }
    assert_eq!(try_row(&log[1..], 8, part, right), refused(1));
    assert_eq!(try_row(&unsound, 8, part, right), refused(21));
    assert_eq!(try_row(&unsound, 256, part, right), refused(21));
    assert_eq!(try_row(&unsound, 0, part, right), refused(2));
    assert_eq!(try_row(&log, 0, &vec![0; FILE + BLOCK], right), refused(2));
    assert_eq!(try_row(&unsound, 0, &row, right), refused(19));
    let take_row = |log: &[u8], unit, row: &[u8]| {
        let mut lent = log.to_vec();
        let answer = raw::take_row(&mut lent, &EMPTY_BASE, &mut [], ARCHIVE, unit, row, &mut []);
        assert_eq!(lent, log);
        answer
    };
    assert_eq!(take_row(&log[1..], 8, part), refused(1));
    assert_eq!(take_row(&unsound, 8, part), refused(21));
    assert_eq!(take_row(&unsound, 0, part), refused(2));
    assert_eq!(take_row(&unsound, 0, &row), refused(19));
    let none = RowTaken {
        taken: 0,
        stopped: 0,
    };
    assert_eq!(take_row(&log, 0, &[]), Ok(none));
    for mut row in wrong(FILE) {
        let before = row.clone();
        let answer = raw::hand_out_row(&full, &EMPTY_BASE, ARCHIVE, 8, &held, &mut row);
        assert_eq!((answer, row), (refused(1), before));
    }
}
