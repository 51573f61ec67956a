//! SAB2 files of states that fold: written and checked slowly, by the words of the
//! format, beside the calls.

mod words;

use plain::{BASE, BLOCK, FILE, LOG, RECORD, SAB2_FILE};
use words::{is_sound_base, word};
use workload::{Chance, Mix, Units};

/// A number and a place.
type Fault = (u8, usize);

/// A block: header, up to six places of 80 bytes, sums.
fn block(archive: u32, unit: u8, place: usize, vector: &[u8], places: &[Vec<u8>]) -> Vec<u8> {
    let mut block = b"SAB2".to_vec();
    block.extend(archive.to_le_bytes());
    block.extend([unit, places.len() as u8]);
    block.extend((place as u16).to_le_bytes());
    block.extend(vector);
    block.extend(places.concat());
    block.resize(BLOCK, 0);
    seal(&mut block);
    block
}

/// Writes the sums of a block, word by word.
fn seal(block: &mut [u8]) {
    let (mut first, mut second) = (0u32, 0u32);
    for word in block[..508].chunks(2) {
        first = (first + u32::from(word[0]) + 256 * u32::from(word[1])) % 65_521;
        second = (second + first) % 65_521;
    }
    block[508..510].copy_from_slice(&(first as u16).to_le_bytes());
    block[510..512].copy_from_slice(&(second as u16).to_le_bytes());
}

fn records(log: &[u8]) -> Vec<Vec<u8>> {
    let records = log.chunks(RECORD).map(<[u8]>::to_vec);
    records.take_while(|record| word(record, 2) != 0).collect()
}

/// The rows of list and base.
fn rows(base: &[u8]) -> Vec<Vec<u8>> {
    let mut rows = vec![base[..24].to_vec()];
    for i in 0..word(base, 2) {
        rows.push(base[24 + 72 * i..][..72].to_vec());
    }
    let asides = &base[36_888..][..12 * word(base, 4)];
    rows.extend(asides.chunks(72).map(<[u8]>::to_vec));
    for row in &mut rows {
        row.resize(RECORD, 0);
    }
    rows
}

/// The SAB2 file of a state.
fn file_of(archive: u32, unit: u8, log: &[u8], base: &[u8]) -> Vec<u8> {
    let held = plain::vector(log, base).expect("a sound state");
    let vector: Vec<u8> = held.iter().flat_map(|count| count.to_le_bytes()).collect();
    let (rows, records) = (rows(base), records(log));
    let runs = rows.chunks(6).chain(records.chunks(6)).enumerate();
    runs.flat_map(|(place, run)| block(archive, unit, place, &vector, run))
        .collect()
}

/// The first check of an SAB2 file that fails.
fn fault_of(file: &[u8]) -> Option<Fault> {
    if file.is_empty() || !file.len().is_multiple_of(BLOCK) || file.len() > SAB2_FILE {
        return Some((2, 0));
    }
    let blocks: Vec<&[u8]> = file.chunks(BLOCK).collect();
    let (entries, asides) = (word(blocks[0], 30), word(blocks[0], 32));
    let rows = 1 + entries + asides.div_ceil(6);
    let first = rows.div_ceil(6);
    for (k, block) in blocks.iter().enumerate() {
        let number = block_fault(&blocks, k, block, rows, first);
        if number != 0 {
            return Some((number, k));
        }
    }
    let places = |blocks: &[&[u8]]| -> Vec<Vec<u8>> {
        let used = |block: &&[u8]| -> Vec<Vec<u8>> {
            let places = block[28..508].chunks(RECORD).map(<[u8]>::to_vec);
            places.take(block[9].into()).collect()
        };
        blocks.iter().flat_map(used).collect()
    };
    let Some(base) = base_of(&places(&blocks[..first]), entries, asides) else {
        return Some((31, 0));
    };
    let (mut counts, mut before) = (vector(&base, 8), Vec::new());
    for (j, record) in places(&blocks[first..]).into_iter().enumerate() {
        let number = record_fault(&base, &counts, &before, &record);
        if number != 0 {
            return Some((number, first + j / 6));
        }
        counts[usize::from(record[0])] += 1;
        before.push(record);
    }
    (vector(blocks[0], 12) != counts).then_some((20, blocks.len() - 1))
}

fn vector(bytes: &[u8], at: usize) -> [usize; 8] {
    std::array::from_fn(|unit| word(bytes, at + 2 * unit))
}

fn block_fault(blocks: &[&[u8]], k: usize, block: &[u8], rows: usize, first: usize) -> u8 {
    let mut sealed = block.to_vec();
    seal(&mut sealed);
    let count = usize::from(block[9]);
    let is_last = k + 1 == blocks.len();
    let count_fits = if k < first {
        count == (rows - 6 * k).min(6) && (!is_last || k + 1 == first)
    } else {
        count == 6 || is_last && count > 0
    };
    match () {
        () if block[..4] != *b"SAB2" => 3,
        () if sealed != block => 4,
        () if block[8] > 7 || count > 6 => 5,
        () if block[28 + 80 * count..508].iter().any(|byte| *byte != 0) => 5,
        () if word(block, 10) != k || block[8] != blocks[0][8] => 20,
        () if block[4..8] != blocks[0][4..8] || block[12..28] != blocks[0][12..28] => 20,
        () if !count_fits => 20,
        () => 0,
    }
}

/// List and base in rows, if they keep the layout and are sound.
fn base_of(rows: &[Vec<u8>], entries: usize, asides: usize) -> Option<Vec<u8>> {
    if entries > 512 || asides > 512 {
        return None;
    }
    let mut base = rows[0][..24].to_vec();
    let mut rest = rows[0][24..].to_vec();
    for row in &rows[1..=entries] {
        base.extend(&row[..72]);
        rest.extend(&row[72..]);
    }
    base.resize(36_888, 0);
    let mut left = 12 * asides;
    for row in &rows[1 + entries..] {
        let used = left.min(72);
        base.extend(&row[..used]);
        rest.extend(&row[used..]);
        left -= used;
    }
    base.resize(BASE, 0);
    let listed = (0..8).all(|unit| word(&base, 8 + 2 * unit) == 0 || base[0] >> unit & 1 == 1);
    (rest.iter().all(|byte| *byte == 0) && listed && is_sound_base(&base)).then_some(base)
}

fn rank(record: &[u8]) -> (usize, u8) {
    (vector(record, 4).iter().sum(), record[0])
}

/// The first check of a record behind others that fails, or 0.
fn record_fault(base: &[u8], counts: &[usize; 8], before: &[Vec<u8>], record: &[u8]) -> u8 {
    let (unit, seen) = (usize::from(record[0]), vector(record, 4));
    let is_covered = |other: &[u8]| (0..8).all(|u| word(other, 4 + 2 * u) <= seen[u]);
    // Of each unit, the last record that was seen, if it is not folded.
    let is_closed = (0..8).all(|u| {
        let is_last = |other: &&Vec<u8>| usize::from(other[0]) == u && word(other, 2) == seen[u];
        seen[u] <= word(base, 8 + 2 * u)
            || before
                .iter()
                .find(is_last)
                .is_some_and(|other| is_covered(other))
    });
    match () {
        () if before.len() == 512 => 11,
        () if !plain::well_formed(record.try_into().expect("80 bytes")) => 7,
        () if base[0] >> unit & 1 == 0 => 26,
        () if before.last().is_some_and(|last| rank(last) >= rank(record)) => 20,
        () if word(record, 2) != counts[unit] + 1 => 8,
        () if (0..8).any(|u| seen[u] > counts[u]) => 8,
        () if !is_closed => 9,
        () => 0,
    }
}

/// Lives of three units, in which one has folded.
fn lives(count: u64) -> impl Iterator<Item = (Units, Chance)> {
    (0..count).map(|seed| {
        let mut chance = Chance::new(4_200 + seed);
        let mix = [Mix::BENCH, Mix::CONFLICTS, Mix::MOVES][seed as usize % 3];
        let mut life = Units::empty(3, 0x0102_0304);
        for _ in 0..chance.below(160) {
            let unit = chance.below(3);
            life.act(&mut chance, &mix, unit);
            life.pass(unit, chance.below(3));
            if chance.one_in(40) {
                life.fold(chance.below(3), 7 | 1 << chance.below(8))
                    .expect("all are listed");
            }
        }
        (life, chance)
    })
}

/// What a call writes, blocks alone; the rest is zero.
fn wrote(
    length: usize,
    call: impl FnOnce(&mut [u8]) -> plain::Answer<u16>,
) -> Result<Vec<u8>, Fault> {
    let mut file = vec![0xa5; length];
    match call(&mut file) {
        Ok(blocks) => {
            let rest = file.split_off(BLOCK * usize::from(blocks));
            assert!(rest.iter().all(|byte| *byte == 0));
            Ok(file)
        }
        Err(refusal) => {
            assert!(file.iter().all(|byte| *byte == 0xa5));
            Err((refusal.number, refusal.place.into()))
        }
    }
}

fn read(file: &[u8]) -> Result<(Vec<u8>, Vec<u8>, plain::Head), Fault> {
    let (mut log, mut base) = (vec![7; LOG], vec![9; BASE]);
    match plain::read_file(&mut log, &mut base, file) {
        Ok(head) => Ok((log, base, head)),
        Err(refusal) => {
            assert!(log == [7; LOG] && base == [9; BASE]);
            Err((refusal.number, refusal.place.into()))
        }
    }
}

fn listing(file: &[u8]) -> String {
    let mut out = vec![0; plain::LISTING];
    let length = plain::listing(file, out.first_chunk_mut().expect("its length"));
    String::from_utf8(out[..length].to_vec()).expect("text")
}

#[test]
fn there_and_back() {
    let (mut folded, mut whole) = (0, 0);
    for (life, _) in lives(120) {
        for unit in 0..3 {
            let (log, base) = (&life.logs[unit], &life.bases[unit]);
            let write =
                |file: &mut [u8]| plain::write_sab2(log, base, life.archive, unit as u8, file);
            let file = wrote(SAB2_FILE, write).expect("a sound state");
            assert!(file == file_of(life.archive, unit as u8, log, base));
            assert_eq!(fault_of(&file), None);
            let (read_log, read_base, head) = read(&file).expect("a good file");
            assert!(read_log == *log && read_base == *base);
            let counted = records(log).len();
            let said = (
                head.archive,
                head.unit,
                usize::from(head.records),
                head.vector,
            );
            assert_eq!(said, (life.archive, unit as u8, counted, life.vector(unit)));
            let back = wrote(FILE, |out| plain::to_sab1(&file, out));
            let write =
                |file: &mut [u8]| plain::write_file(log, base, life.archive, unit as u8, file);
            match wrote(FILE, write) {
                Err(refused) => {
                    assert_eq!(refused, (29, 0));
                    assert_eq!(back, Err((29, 0)));
                    folded += 1;
                }
                Ok(sab1) => {
                    assert!(back.as_ref() == Ok(&sab1));
                    assert_eq!(listing(&sab1), listing(&file));
                    both_ways(&sab1);
                    whole += 1;
                }
            }
        }
    }
    assert!(folded > 50 && whole > 50, "{folded} {whole}");
}

/// To SAB2 and back gives the same bytes; the list is that of all eight.
fn both_ways(sab1: &[u8]) {
    let sab2 = wrote(SAB2_FILE, |out| plain::to_sab2(sab1, out)).expect("a good file");
    let (log, base, head) = read(sab1).expect("a good file");
    assert!(base == plain::EMPTY_BASE);
    assert!(sab2 == file_of(head.archive, head.unit, &log, &base));
    assert!(read(&sab2) == Ok((log, base, head)));
    assert_eq!(
        wrote(FILE, |out| plain::to_sab1(&sab2, out)).as_deref(),
        Ok(sab1)
    );
    let wrong = if sab2.len() > FILE { (2, 0) } else { (3, 0) };
    assert_eq!(
        wrote(SAB2_FILE, |out| plain::to_sab2(&sab2, out)),
        Err(wrong)
    );
    assert_eq!(wrote(FILE, |out| plain::to_sab1(sab1, out)), Err((3, 0)));
}

/// Files of the greatest lengths.
#[test]
fn greatest() {
    let mut life = Units::empty(1, 7);
    let folder = |number: usize| {
        let mut wish = [0; 80];
        wish[1] = 1;
        wish[28..32].copy_from_slice(&[0xe9, 7, 3, 3]);
        let label = format!("{number:?}{:?}", "\"".repeat(12));
        wish[32..32 + label.len()].copy_from_slice(label.as_bytes());
        wish
    };
    for number in 0..512 {
        life.act_on(0, &folder(number)).expect("room");
    }
    assert_eq!(life.fold(0, 1), Ok(512));
    for number in 512..1024 {
        life.act_on(0, &folder(number)).expect("room");
    }
    let (log, base) = (&life.logs[0], &life.bases[0]);
    let file = wrote(SAB2_FILE, |out| plain::write_sab2(log, base, 7, 0, out)).expect("sound");
    assert_eq!(file.len(), (86 + 86) * BLOCK);
    assert!(file == file_of(7, 0, log, base));
    assert_eq!(listing(&file).lines().count(), 2 + 1024);
    // 512 asides that no life comes to: a base that is sound all the same.
    let mut base = base.clone();
    base[4..6].copy_from_slice(&512u16.to_le_bytes());
    base[10..12].copy_from_slice(&512u16.to_le_bytes());
    base[0] = 3;
    for (number, row) in (1u16..).zip(base[36_888..].chunks_mut(12)) {
        row[0] = 1;
        row[2..4].copy_from_slice(&number.to_le_bytes());
        row[4..6].copy_from_slice(&[15, 1]);
        row[10..12].copy_from_slice(&number.to_le_bytes());
    }
    let file = wrote(SAB2_FILE, |out| plain::write_sab2(log, &base, 7, 0, out)).expect("sound");
    assert_eq!(file.len(), SAB2_FILE);
    let (read_log, read_base, _) = read(&file).expect("a good file");
    assert!(read_log == *log && read_base == base);
    let text = listing(&file);
    assert_eq!(text.lines().count(), 2 + 1024 + 512);
    assert!(text.len() <= 172_123);
    let longer = [&file[..], &[0; BLOCK]].concat();
    assert_eq!(read(&longer), Err((2, 0)));
    assert_eq!(listing(&longer), "refused 2 at 0\n");
}

/// Files with changed bytes, sealed again: judged as the words say, and one that
/// is accepted is written again byte for byte.
#[test]
fn damaged() {
    let mut answers = [0; 32];
    for (life, mut chance) in lives(150) {
        let (log, base) = (&life.logs[0], &life.bases[0]);
        let good = file_of(life.archive, 0, log, base);
        let blocks = good.len() / BLOCK;
        let first = word(&good, 30) + word(&good, 32).div_ceil(6) + 1;
        for _ in 0..120 {
            let mut file = good.clone();
            for _ in 0..=chance.below(2) {
                // Rows mostly, and records.
                let place = match chance.below(3) {
                    0 => chance.below(6 * blocks),
                    _ => chance.below(first),
                };
                let at = BLOCK * (place / 6) + 28 + RECORD * (place % 6) + chance.below(RECORD);
                let at = match chance.below(8) {
                    0 => BLOCK * chance.below(blocks) + chance.below(28),
                    1 => 28 + chance.below(RECORD),
                    2 => BLOCK * (place / 6) + 28 + RECORD * (place % 6) + 72 + chance.below(8),
                    _ => at,
                };
                file[at] = match chance.below(3) {
                    0 => file[at] ^ 1 << chance.below(8),
                    1 => file[at].wrapping_add(1),
                    _ => chance.below(8) as u8,
                };
            }
            match chance.below(12) {
                0 => file.truncate(BLOCK * (1 + chance.below(blocks))),
                1 => {
                    let k = BLOCK * chance.below(blocks);
                    file.extend_from_within(k..k + BLOCK);
                }
                2 => file.truncate(chance.below(file.len())),
                _ => (),
            }
            if !chance.one_in(10) {
                file.chunks_exact_mut(BLOCK).for_each(seal);
            }
            if !file.starts_with(b"SAB2") {
                continue;
            }
            let expected = fault_of(&file);
            match read(&file) {
                Ok((log, base, head)) => {
                    assert_eq!(expected, None);
                    assert!(file == file_of(head.archive, head.unit, &log, &base));
                    answers[0] += 1;
                }
                Err(fault) => {
                    assert_eq!(Some(fault), expected);
                    assert_eq!(
                        listing(&file),
                        format!("refused {} at {}\n", fault.0, fault.1)
                    );
                    assert_eq!(wrote(FILE, |out| plain::to_sab1(&file, out)), Err(fault));
                    answers[usize::from(fault.0)] += 1;
                }
            }
        }
    }
    for number in [0, 2, 3, 4, 5, 7, 8, 9, 20, 26, 31] {
        assert!(answers[number] > 0, "{number}: {answers:?}");
    }
}

/// Every byte of a file changed alone, and every cut: refused.
#[test]
fn single_bytes() {
    let (life, _) = lives(30)
        .find(|(life, _)| word(&life.bases[0], 2) > 4)
        .expect("one folds");
    let good = file_of(life.archive, 0, &life.logs[0], &life.bases[0]);
    for at in 0..good.len() {
        let mut file = good.clone();
        file[at] ^= 1 << (at % 8);
        assert!(read(&file).is_err() && read(&good[..at]).is_err());
    }
}
