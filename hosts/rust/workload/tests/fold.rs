//! Folding against twins that never fold: the same calls, the same answers, the
//! same trees. What a fold leaves is worked out slowly from the twin's records.

mod words;

use plain::{ASIDE_ROW, BASE, BLOCK, EMPTY_BASE, ENTRY_ROW, INDEX, LOG, RECORD, ROWS, TREE};
use words::{is_sound_base, word};
use workload::{Chance, Mix, Units, wish};

type Vector = [u16; 8];

fn records(log: &[u8]) -> Vec<&[u8]> {
    let records = log.chunks(RECORD);
    records.take_while(|record| record[2..4] != [0, 0]).collect()
}

fn number(record: &[u8]) -> u16 {
    u16::from_le_bytes([record[2], record[3]])
}

fn vector_at(bytes: &[u8], at: usize) -> Vector {
    std::array::from_fn(|i| u16::from_le_bytes([bytes[at + 2 * i], bytes[at + 2 * i + 1]]))
}

/// A log of the first records of another.
fn first(log: &[u8], count: usize) -> Vec<u8> {
    let mut first = log[..count * RECORD].to_vec();
    first.resize(LOG, 0);
    first
}

fn tree(log: &[u8], base: &[u8]) -> Vec<u8> {
    let mut tree = vec![0; TREE];
    plain::show(log, base, &mut tree).expect("a sound state");
    tree
}

/// How many records every listed unit has heard, from the lowest rank on.
fn heard_run(log: &[u8], base: &[u8], own: usize, list: u8) -> usize {
    let held = plain::vector(log, base).expect("a sound state");
    let records = records(log);
    let heard: Vec<Vector> = (0..8)
        .filter(|unit| list >> unit & 1 == 1)
        .map(|unit| {
            if unit == own {
                return held;
            }
            match records.iter().rfind(|record| record[0] as usize == unit) {
                None => vector_at(base, 8),
                Some(record) => {
                    let mut heard = vector_at(record, 4);
                    heard[unit] = number(record);
                    heard
                }
            }
        })
        .collect();
    let is_heard = |record: &&&[u8]| {
        let mut heard = heard.iter();
        heard.all(|heard| number(record) <= heard[record[0] as usize])
    };
    records.iter().take_while(is_heard).count()
}

/// The base of a list and of the first records of a log that was never folded.
fn base_of(list: u8, log: &[u8], count: usize) -> Option<Vec<u8>> {
    let log = first(log, count);
    let tree = tree(&log, &EMPTY_BASE);
    let (entries, asides) = (&tree[..2], &tree[2..4]);
    let size = |count: &[u8]| usize::from(u16::from_le_bytes([count[0], count[1]]));
    if size(entries) > 512 || size(asides) > 512 {
        return None;
    }
    let mut base = vec![list, 0, entries[0], entries[1], asides[0], asides[1], 0, 0];
    for count in plain::vector(&log, &EMPTY_BASE).expect("a sound log") {
        base.extend(count.to_le_bytes());
    }
    for row in tree[4..].chunks(ENTRY_ROW).take(512) {
        base.extend([row[0], 0]);
        base.extend(&row[2..]);
    }
    base.extend(tree[4 + ROWS * ENTRY_ROW..].chunks(ASIDE_ROW).take(512).flatten());
    assert_eq!(base.len(), BASE);
    Some(base)
}

/// Folds a unit, and compares with its twin. How many records were folded.
fn fold(life: &mut Units, twins: &Units, unit: usize, list: u8) -> usize {
    let (log, base) = (life.logs[unit].clone(), life.bases[unit].clone());
    let before = records(&twins.logs[unit]).len() - records(&log).len();
    let given = life.fold(unit, list);
    let held = twins.vector(unit);
    let lists_all = (0..8).all(|unit| held[unit] == 0 || list >> unit & 1 == 1);
    if list >> unit & 1 == 0 || !lists_all {
        assert_eq!(given.map_err(|refusal| refusal.number), Err(26));
        assert!(life.logs[unit] == log && life.bases[unit] == base);
        return 0;
    }
    let run = usize::from(given.expect("a fit list"));
    let heard = heard_run(&log, &base, unit, list);
    let longest = (0..=heard)
        .rev()
        .find(|run| base_of(list, &twins.logs[unit], before + run).is_some());
    assert_eq!(Some(run), longest);
    let expected = base_of(list, &twins.logs[unit], before + run);
    assert!(Some(&life.bases[unit]) == expected.as_ref());
    let mut left = log[run * RECORD..].to_vec();
    left.resize(LOG, 0);
    assert!(life.logs[unit] == left);
    // A second time there is nothing to fold.
    assert_eq!(life.fold(unit, list), Ok(0));
    assert!(Some(&life.bases[unit]) == expected.as_ref());
    run
}

/// The unit shows what its twin shows.
fn compare(life: &Units, twins: &Units, unit: usize) {
    assert_eq!(life.vector(unit), twins.vector(unit));
    assert!(life.tree(unit) == twins.tree(unit));
    let index = |units: &Units| {
        let mut index = vec![3; INDEX];
        plain::index(&units.logs[unit], &units.bases[unit], &mut index).expect("a sound state");
        index
    };
    assert!(index(life) == index(twins));
}

/// Passes all that a unit lacks, at the twins too. Where the giver has folded what
/// the other lacks, nothing is passed.
fn pass(life: &mut Units, twins: &mut Units, from: usize, to: usize) -> bool {
    loop {
        let asked = life.vector(to);
        let give = |units: &Units| {
            let mut block = [0; BLOCK];
            let (log, base) = (&units.logs[from], &units.bases[from]);
            let given = plain::hand_out(log, base, units.archive, from as u8, &asked, &mut block);
            given.map(|()| block).map_err(|refusal| refusal.number)
        };
        let base = vector_at(&life.bases[from], 8);
        let block = give(life);
        if (0..8).any(|unit| asked[unit] < base[unit]) {
            assert_eq!(block, Err(27));
            return false;
        }
        assert_eq!(block, give(twins));
        let block = block.expect("a sound state");
        if block[9] == 0 {
            return true;
        }
        for units in [&mut *life, &mut *twins] {
            let (log, base) = (&mut units.logs[to], &units.bases[to]);
            plain::take(log, base, &mut [], 7, to as u8, &block).expect("a block of one life");
        }
    }
}

#[test]
fn twins() {
    let (mut folded, mut refused, mut folds) = (0, 0, 0);
    for seed in 0..30u64 {
        let mut chance = Chance::new(900 + seed);
        let mix = [Mix::BENCH, Mix::CONFLICTS, Mix::CASES, Mix::MOVES][seed as usize % 4];
        let units = 2 + seed as usize % 4;
        // Every list names each unit that ever acts.
        let named = (1u8 << units) - 1;
        let mut life = Units::empty(8, 7);
        let mut twins = Units::empty(8, 7);
        for _ in 0..400 {
            let unit = chance.below(units);
            match chance.below(8) {
                0..4 => {
                    let wish = wish(&mut chance, &mix, unit as u8, &twins.tree(unit));
                    let is_full = records(&twins.logs[unit]).len() == 512;
                    if !is_full {
                        let acted = life.act_on(unit, &wish);
                        assert_eq!(acted, twins.act_on(unit, &wish));
                    }
                }
                4..7 => {
                    let other = chance.below(units + 1).min(7);
                    let passed = pass(&mut life, &mut twins, unit, other);
                    // A unit that never acts may be left behind.
                    refused += !passed as usize;
                    assert!(passed || other == units);
                    compare(&life, &twins, other);
                }
                _ => {
                    let more = [0, 1 << chance.below(8), 255][chance.below(3)];
                    // A list without the own unit or one with a record is refused;
                    // one without a unit that acts later would break the premise.
                    let left_out = chance.below(units);
                    let is_refused = left_out == unit || life.vector(unit)[left_out] > 0;
                    let list = match chance.below(9) {
                        0 if is_refused => named & !(1 << left_out),
                        _ => named | more,
                    };
                    folded += fold(&mut life, &twins, unit, list);
                    folds += 1;
                }
            }
            compare(&life, &twins, unit);
        }
    }
    assert!(folded > 2_000 && folds > 1_000 && refused > 10, "{folded} {folds} {refused}");
}

/// A wish of unit 0.
fn plain_wish(operation: u8, object: u16, label: &str) -> [u8; 80] {
    let mut wish = [0; 80];
    wish[1] = operation;
    wish[22..24].copy_from_slice(&object.to_le_bytes());
    wish[28..32].copy_from_slice(&[0xe9, 7, 3, 3]);
    wish[32..32 + label.len()].copy_from_slice(label.as_bytes());
    wish
}

/// With unit 0 alone listed all is heard; the base holds 512 entries.
#[test]
fn over_a_bulge() {
    let mut life = Units::empty(1, 7);
    for number in 1..=512 {
        life.act_on(0, &plain_wish(1, 0, &number.to_string())).expect("room");
    }
    let full = life.act_on(0, &plain_wish(1, 0, "513"));
    assert_eq!(full.map_err(|refusal| refusal.number), Err(11));
    assert_eq!(life.fold(0, 1), Ok(512));
    // One entry too many: nothing is folded.
    life.act_on(0, &plain_wish(1, 0, "513")).expect("room");
    assert_eq!(life.fold(0, 1), Ok(0));
    // One removed, and another made: the run ends before it.
    life.act_on(0, &plain_wish(4, 17, "")).expect("it is there");
    life.act_on(0, &plain_wish(1, 0, "514")).expect("room");
    assert_eq!(life.fold(0, 1), Ok(2));
    // Over the bulge of 513 to 512 again.
    life.act_on(0, &plain_wish(4, 18, "")).expect("it is there");
    assert_eq!(life.fold(0, 1), Ok(2));
    assert_eq!(u16::from_le_bytes([life.bases[0][2], life.bases[0][3]]), 512);
    // A folded entry is found, renamed, and not there once it is removed.
    life.act_on(0, &plain_wish(5, 19, "other")).expect("it is there");
    let gone = life.act_on(0, &plain_wish(5, 18, "other"));
    assert_eq!(gone.map_err(|refusal| refusal.number), Err(12));
    assert_eq!(life.vector(0)[0], 517);
}

/// Bases with changed bytes, and with rows and fields of others: sound exactly if
/// the words of the format say so.
#[test]
fn sound_bases() {
    let mut chance = Chance::new(78);
    let (mut sound, mut unsound) = (0, 0);
    for _ in 0..10 {
        let mut life = Units::empty(3, 7);
        for _ in 0..150 {
            let unit = chance.below(3);
            life.act(&mut chance, &Mix::MOVES, unit);
            life.pass(unit, chance.below(3));
        }
        life.fold(0, 7).expect("all are listed");
        // Alone, so that no log speaks against it.
        let (log, good) = (vec![0; LOG], &life.bases[0]);
        let (n, m) = (word(good, 2).max(1), word(good, 4).max(1));
        for _ in 0..600 {
            let mut base = good.clone();
            for _ in 0..=chance.below(2) {
                let row = 24 + 72 * chance.below(n);
                let other = 24 + 72 * chance.below(n);
                let field = [4, 8, 12, 16][chance.below(4)];
                match chance.below(7) {
                    0 => base.copy_within(other + 4..other + 8, row + field),
                    1 => base.copy_within(other + 24..other + 56, row + 24),
                    2 => base.copy_within(other..other + 72, row),
                    3 => base.copy_within(36_888..36_892, row + field),
                    4 => base[row] = 1 + chance.below(3) as u8,
                    5 => base[36_888 + chance.below(12 * m)] ^= 1 << chance.below(8),
                    _ => base[row + chance.below(72)] ^= 1 << chance.below(8),
                }
            }
            let expected = is_sound_base(&base);
            assert_eq!(plain::sound(&log, &base), expected);
            *if expected { &mut sound } else { &mut unsound } += 1;
        }
    }
    assert!(sound > 800 && unsound > 800, "{sound} {unsound}");
}

/// Flipped bits of a base: never a panic, and a sound one stays as it was.
#[test]
fn damaged_bases() {
    let mut chance = Chance::new(77);
    let (mut sound, mut unsound) = (0, 0);
    for seed in 0..12 {
        let mut life = Units::empty(3, 7);
        for _ in 0..120 {
            let unit = chance.below(3);
            life.act(&mut chance, &Mix::MOVES, unit);
            life.pass(unit, chance.below(3));
        }
        life.fold(0, 7).expect("all are listed");
        for _ in 0..400 {
            let mut base = life.bases[0].clone();
            let used = 24 + ENTRY_ROW * usize::from(base[2]);
            for _ in 0..=chance.below(2) {
                let at = match chance.below(4) {
                    0 => chance.below(24),
                    1 => 36_888 + chance.below(ASIDE_ROW * usize::from(base[4]).max(1)),
                    _ => chance.below(used),
                };
                base[at] = match chance.below(3) {
                    0 => base[at] ^ 1 << chance.below(8),
                    1 => base[at].wrapping_add(1),
                    _ => base[at].wrapping_sub(1),
                };
            }
            let mut log = life.logs[0].clone();
            let before = base.clone();
            let is_sound = plain::sound(&log, &base);
            assert_eq!(plain::show(&log, &base, &mut vec![0; TREE]).is_ok(), is_sound);
            match plain::fold(&mut log, &mut base, 7, 0, 255) {
                Ok(_) => assert!(is_sound),
                Err(refusal) => {
                    assert!(refusal.number == 19 && !is_sound && base == before, "seed {seed}");
                }
            }
            *if is_sound { &mut sound } else { &mut unsound } += 1;
        }
    }
    assert!(sound > 300 && unsound > 300, "{sound} {unsound}");
}
