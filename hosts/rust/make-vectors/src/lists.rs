//! The call lists.

use crate::chain::{Wished, blocks_of_six, chain, file_of, seal};
use crate::list::{Lent, List};
use crate::long;
use Lent::{Outside, Own};
use plain::{BLOCK, FILE, LOG, SAB2_FILE};
use workload::{Chance, Mix, wish};

pub fn all() -> Vec<(&'static str, String)> {
    vec![
        (
            "meetings",
            meetings("demand 3, eight units", 11, 8, 90, &Mix::BENCH),
        ),
        (
            "conflicts",
            meetings(
                "demand 3, three units, few labels",
                12,
                3,
                90,
                &Mix::CONFLICTS,
            ),
        ),
        (
            "cases",
            meetings(
                "demand 3, three units, few labels in capitals and small letters",
                14,
                3,
                120,
                &Mix::CASES,
            ),
        ),
        (
            "moves",
            meetings(
                "demand 3, three units, many moves",
                15,
                3,
                150,
                &Mix::MOVES,
            ),
        ),
        (
            "folding",
            folding("demand 3, three units of five listed, folding", 16, 3, 160, &Mix::MOVES),
        ),
        ("damage", damage("anything goes, four units", 13, 110)),
        ("refusals", refusals()),
        ("full", full()),
        ("reasons", reasons()),
        ("long-entries", long::entries()),
        ("long-asides", long::asides()),
    ]
}

/// One of the blocks given, mostly a late one.
fn given(chance: &mut Chance, list: &List) -> Option<Vec<u8>> {
    let last = list.given.len().checked_sub(1)?;
    let back = if chance.one_in(3) { last } else { last.min(2) };
    Some(list.given[last - chance.below(back + 1)].clone())
}

/// Units that act and meet; blocks are lost, repeated, late and out of order.
fn meetings(remark: &str, seed: u64, units: usize, calls: usize, mix: &Mix) -> String {
    let archive = 2_147_483_648 + seed as u32;
    let mut chance = Chance::new(seed);
    let mut list = List::new(remark);
    for slot in 0..units {
        list.start(slot, Own, archive, slot as u8);
    }
    for call in 0..calls {
        let slot = chance.below(units);
        let own = slot as u8;
        let seed = chance.number() as u8;
        match chance.below(100) {
            0..45 => {
                let wish = wish(&mut chance, mix, own, &list.tree(slot));
                list.act(slot, Own, archive, own, &wish);
            }
            45..72 => {
                let asked = list.vector(chance.below(units));
                list.hand_out(slot, Own, archive, own, &asked, (BLOCK, seed));
            }
            72..98 => {
                if let Some(block) = given(&mut chance, &list) {
                    list.take(slot, Own, archive, own, &block);
                }
            }
            98 => {
                list.write(slot, Own, archive, own, FILE, seed);
            }
            _ => {
                list.show(slot, Own);
            }
        }
        if call % 60 == 59 {
            list.show(slot, Own);
        }
    }
    list.end()
}

/// Units that act, meet and fold. Every list names each unit that acts.
fn folding(remark: &str, seed: u64, units: usize, calls: usize, mix: &Mix) -> String {
    let archive = 77;
    let mut chance = Chance::new(seed);
    let mut list = List::new(remark);
    let named = (1u8 << units) - 1;
    let mut folded = 0;
    for call in 0..calls {
        let slot = chance.below(units);
        let own = slot as u8;
        match chance.below(100) {
            0..60 => {
                let wish = wish(&mut chance, mix, own, &list.tree(slot));
                list.act(slot, Own, archive, own, &wish);
            }
            60..80 => {
                let to = chance.below(units);
                pass_in(&mut list, archive, slot, to);
            }
            80..95 => {
                let more = [0, 0, 16][chance.below(3)];
                assert_eq!(list.fold(slot, archive, own, named | more), 0);
                folded += usize::from(list.bases[slot][8] > 0);
            }
            95..97 => {
                list.write(slot, Own, archive, own, FILE, 1);
            }
            _ => {
                let asked = [0; 8];
                list.hand_out(slot, Own, archive, own, &asked, (BLOCK, 3));
            }
        }
        if call % 40 == 39 {
            list.show(slot, Own);
            list.write_sab2(slot, Own, archive, own, SAB2_FILE, 1);
            list.readout2(slot, archive, own);
            list.back(slot, archive, own);
        }
    }
    assert!(folded > 5);
    list.readout2(7, archive, 7);
    list.back(7, archive, 7);
    list.end()
}

/// As above, with damaged blocks, wrong units, lengths and archives, logs from
/// outside and units started again.
fn damage(remark: &str, seed: u64, calls: usize) -> String {
    let mut chance = Chance::new(seed);
    let mut list = List::new(remark);
    for _ in 0..calls {
        let slot = chance.below(4);
        let unit = if chance.one_in(25) {
            chance.number() as u8
        } else {
            slot as u8
        };
        let archive = if chance.one_in(25) { 6 } else { 7 };
        let seed = chance.number() as u8;
        let outside = unsound(&mut chance, &list.logs[slot]);
        let log = if chance.one_in(25) {
            Outside(&outside)
        } else {
            Own
        };
        let odd = chance.one_in(20);
        match chance.below(100) {
            0..42 => {
                let tree = list.tree(slot);
                let mut wish = wish(&mut chance, &Mix::CONFLICTS, slot as u8, &tree).to_vec();
                if chance.one_in(4) {
                    let at = chance.below(80);
                    wish[at] = *chance.pick(&[0, 1, 2, 6, 7, 8, 0x20, 0x41, 0x7f, 0xff]);
                }
                wish.truncate(if odd { 79 } else { 80 });
                list.act(slot, log, archive, unit, &wish);
            }
            42..62 => {
                let asked = if odd {
                    std::array::from_fn(|_| chance.number() as u16)
                } else {
                    list.vector(chance.below(4))
                };
                let length = if chance.one_in(20) { 511 } else { BLOCK };
                list.hand_out(slot, log, archive, unit, &asked, (length, seed));
            }
            62..92 => {
                let Some(mut block) = given(&mut chance, &list) else {
                    continue;
                };
                harm(&mut chance, &mut block);
                block.truncate(if odd { 508 } else { BLOCK });
                list.take(slot, log, archive, unit, &block);
            }
            92..95 => {
                let length = if odd { FILE - 1 } else { FILE };
                list.write(slot, log, archive, unit, length, seed);
            }
            95..98 => {
                list.show(slot, log);
            }
            _ => {
                list.start(slot, log, archive, unit);
            }
        }
    }
    list.end()
}

/// A log that is mostly not sound any more.
fn unsound(chance: &mut Chance, log: &[u8]) -> Vec<u8> {
    let mut log = log.to_vec();
    if chance.one_in(5) {
        log.truncate(LOG - 80);
        return log;
    }
    let used = log
        .chunks(80)
        .take_while(|record| record[2..4] != [0, 0])
        .count();
    let at = chance.below(80 * (used + 1));
    log[at] ^= 1 << chance.below(8);
    log
}

/// Changes a block half of the time, mostly with sums put right again.
fn harm(chance: &mut Chance, block: &mut [u8]) {
    if chance.one_in(2) {
        return;
    }
    let used = 28 + 80 * block[9].min(6) as usize;
    let at = if chance.one_in(3) {
        chance.below(28)
    } else {
        chance.below(used)
    };
    block[at] = *chance.pick(&[0, 1, 2, 3, 5, 6, 7, 8, 0x20, 0x41, 0xff]);
    if !chance.one_in(4) {
        seal(block);
    }
}

/// Each call refused for each cause, in the order of the checks.
fn refusals() -> String {
    let mut list = List::new("each call with each refusal that it can give");
    let records = blocks_of_six(2);
    let mut sound = records[..6].as_flattened().to_vec();
    sound.resize(LOG, 0);
    let mut unsound = sound.clone();
    unsound[31] = 0;
    let file = file_of(&records, 7, 0);
    let (first, second) = file.split_at(BLOCK);
    let short = &sound[..LOG - 1];
    let mut make = [0; 80];
    make[1] = 1;
    make[28..33].copy_from_slice(&[0xe9, 7, 3, 3, b'A']);

    for (log, unit) in [
        (Outside(short), 8),
        (Outside(&sound), 8),
        (Outside(&unsound), 3),
    ] {
        list.start(3, log, 7, unit);
        list.act(3, log, 7, unit, &make);
        list.take(3, log, 7, unit, first);
        list.hand_out(3, log, 7, unit, &[0; 8], (BLOCK, 9));
        list.write(3, log, 7, unit, FILE, 9);
        list.show(3, log);
    }
    list.start(3, Outside(&[]), 7, 3);
    list.act(3, Outside(&sound), 7, 8, &make[..79]);
    list.act(3, Outside(&unsound), 7, 3, &make);
    list.hand_out(0, Outside(&sound), 7, 8, &[0; 8], (BLOCK + 1, 9));
    list.hand_out(0, Outside(&sound), 7, 0, &[65_535; 8], (BLOCK, 9));
    list.write(0, Outside(&sound), 7, 8, 0, 9);
    list.write(0, Outside(&sound), 7, 0, FILE, 9);
    refused_wishes(&mut list, &sound, &make);
    refused_blocks(&mut list, &sound, first, second);
    list.end()
}

fn refused_wishes(list: &mut List, sound: &[u8], make: &[u8; 80]) {
    let changed = |changes: &[(usize, u8)]| {
        let mut wish = *make;
        changes.iter().for_each(|(at, byte)| wish[*at] = *byte);
        wish
    };
    let labelled = |mut wish: [u8; 80]| {
        wish[32..39].copy_from_slice(b"Bench 0");
        wish
    };
    let log = Outside(sound);
    let expected: [(u8, [u8; 80]); 22] = [
        (7, changed(&[(0, 1)])),
        (7, changed(&[(2, 9)])),
        (7, changed(&[(4, 8)])),
        (7, changed(&[(28, 0), (29, 0), (30, 0), (31, 0)])),
        (7, changed(&[(26, 9)])),
        (12, changed(&[(1, 4), (22, 3), (32, 0)])),
        (13, changed(&[(26, 3)])),
        (14, changed(&[(26, 2)])),
        (14, changed(&[(1, 3), (22, 1), (32, 0)])),
        (15, labelled(changed(&[]))),
        // A rename to the own label.
        (0, labelled(changed(&[(1, 5), (22, 1)]))),
        (16, changed(&[(1, 4), (22, 1), (32, 0)])),
        (18, changed(&[(1, 6), (22, 1), (32, 0)])),
        (0, changed(&[(26, 1)])),
        // Moves of 0.1 into itself, of 0.2 into itself, into a record that is no
        // make, of such a record, of the root, to the label of 0.1, out of 0.1, and
        // to where it is.
        (25, changed(&[(1, 7), (22, 1), (26, 1)])),
        (14, changed(&[(1, 7), (22, 2), (26, 2)])),
        (13, changed(&[(1, 7), (22, 2), (26, 3)])),
        (12, changed(&[(1, 7), (22, 3), (26, 1)])),
        (7, changed(&[(1, 7), (26, 1)])),
        (15, labelled(changed(&[(1, 7), (22, 2)]))),
        (0, changed(&[(1, 7), (22, 2)])),
        (0, labelled(changed(&[(1, 7), (22, 1)]))),
    ];
    for (number, wish) in expected {
        assert_eq!(list.act(0, log, 7, 0, &wish), number);
    }
}

fn refused_blocks(list: &mut List, sound: &[u8], first: &[u8], second: &[u8]) {
    let changed = |block: &[u8], changes: &[(usize, u8)]| {
        let mut block = block.to_vec();
        changes.iter().for_each(|(at, byte)| block[*at] = *byte);
        seal(&mut block);
        block
    };
    let mut wrong_sum = first.to_vec();
    wrong_sum[508] ^= 1;
    let log = Outside(sound);
    let none: &[u8] = &[0; LOG];
    let expected: [(u8, &[u8], Vec<u8>); 13] = [
        (2, none, first[..511].to_vec()),
        (2, none, Vec::new()),
        (3, none, changed(first, &[(3, b'2')])),
        (4, none, wrong_sum),
        (5, none, changed(first, &[(8, 8)])),
        (5, none, changed(first, &[(9, 7)])),
        (5, none, changed(first, &[(9, 5)])),
        (6, none, changed(first, &[(4, 8)])),
        (7, none, changed(first, &[(28 + 31, 32)])),
        (8, none, changed(second, &[(9, 6)])),
        (10, sound, changed(first, &[(28 + 31, 28)])),
        (0, sound, changed(second, &[(10, 9), (12, 77)])),
        // The settle of unit 2 saw 1.1, but not the rename that 1.1 saw.
        (9, none, changed(first, &[(28 + 400 + 4, 3)])),
    ];
    for (number, lent, block) in expected {
        assert_eq!(list.take(2, Outside(lent), 7, 2, &block), number);
    }
    list.take(2, log, 7, 9, &first[..7]);
}

/// A log filled to 512 by takes; then nothing new is taken or made.
pub fn full() -> String {
    let mut list = List::new("a log filled to 512 records");
    let mut wished: Vec<Wished> = (0..6)
        .map(|i| Wished {
            unit: i,
            operation: 2,
            named: None,
            label: format!("T{i}"),
            mark: i,
        })
        .collect();
    for i in 6..513 {
        wished.push(Wished {
            unit: (i * i % 7) as u8,
            operation: 3,
            named: Some(i % 6),
            label: String::new(),
            mark: 0,
        });
    }
    let records = chain(&wished);
    let file = file_of(&records[..512], 3, 5);
    for block in file.chunks(BLOCK) {
        assert_eq!(list.take(7, Own, 3, 7, block), 0);
    }
    list.show(7, Own);
    list.write(7, Own, 3, 7, FILE, 1);
    list.hand_out(7, Own, 3, 7, &[3; 8], (BLOCK, 2));
    let mut store = [0; 80];
    store[..2].copy_from_slice(&[7, 3]);
    store[22] = 1;
    store[28..32].copy_from_slice(&[0xe9, 7, 3, 3]);
    assert_eq!(list.act(7, Own, 3, 7, &store), 11);
    store[30] = 13;
    assert_eq!(list.act(7, Own, 3, 7, &store), 7);
    let mut rename = store;
    rename[1] = 5;
    rename[30] = 3;
    rename[32] = b'/';
    assert_eq!(list.act(7, Own, 3, 7, &rename), 24);
    let mut last = file_of(&records[507..513], 3, 5);
    assert_eq!(list.take(7, Own, 3, 7, &last), 11);
    // On a full log too, 8 and 9 come before 11.
    let record = 28 + 400;
    let own = record + 4 + 2 * last[record] as usize;
    let good = last.clone();
    last[record + 2] += 1;
    last[own] += 1;
    seal(&mut last);
    assert_eq!(list.take(7, Own, 3, 7, &last), 8);
    last = good;
    let named = [last[record], last[record + 20]];
    let other = (0..7)
        .find(|unit| !named.contains(unit))
        .expect("a third unit");
    let other = record + 4 + 2 * other as usize;
    last[other..other + 2].fill(0);
    seal(&mut last);
    assert_eq!(list.take(7, Own, 3, 7, &last), 9);
    last[9] = 5;
    last[28 + 400..508].fill(0);
    seal(&mut last);
    assert_eq!(list.take(7, Own, 3, 7, &last), 0);
    list.end()
}

/// Two units; where two reasons hold, the first in the paper's order counts.
fn reasons() -> String {
    let mut list = List::new("two reasons at once");
    let make = |unit: u8, operation: u8, folder: u8, label: &str| {
        let mut wish = [0; 80];
        wish[..2].copy_from_slice(&[unit, operation]);
        wish[26] = folder;
        wish[28..32].copy_from_slice(&[0xe9, 7, 3, 3]);
        wish[32..32 + label.len()].copy_from_slice(label.as_bytes());
        wish
    };
    let on = |unit: u8, operation: u8, object: u8, label: &str| {
        let mut wish = make(unit, operation, 0, label);
        wish[22] = object;
        wish
    };
    let act = |list: &mut List, wish: [u8; 80]| {
        let unit = wish[0];
        assert_eq!(list.act(unit as usize, Own, 7, unit, &wish), 0);
    };
    act(&mut list, make(0, 1, 0, "F"));
    pass(&mut list, 0, 1);
    // 1.3 removes 0.1, in which 0.2 stands and whose new label it has not seen.
    act(&mut list, make(0, 2, 1, "T"));
    act(&mut list, on(0, 5, 1, "G"));
    act(&mut list, make(1, 2, 0, "a"));
    act(&mut list, make(1, 2, 0, "b"));
    act(&mut list, on(1, 4, 1, ""));
    pass(&mut list, 0, 1);
    pass(&mut list, 1, 0);
    list.show(0, Own);
    // 1.6 renames 0.4, whose new label it has not seen, to a label that is held.
    act(&mut list, make(0, 2, 0, "R"));
    pass(&mut list, 0, 1);
    act(&mut list, on(0, 5, 4, "S"));
    act(&mut list, make(0, 2, 0, "Q"));
    act(&mut list, make(1, 2, 0, "c"));
    act(&mut list, make(1, 2, 0, "d"));
    act(&mut list, on(1, 5, 4, "Q"));
    pass(&mut list, 1, 0);
    pass(&mut list, 0, 1);
    list.show(1, Own);
    list.end()
}

/// Passes all that the other slot lacks.
pub fn pass(list: &mut List, from: usize, to: usize) {
    pass_in(list, 7, from, to);
}

fn pass_in(list: &mut List, archive: u32, from: usize, to: usize) {
    loop {
        let asked = list.vector(to);
        let given = list.hand_out(from, Own, archive, from as u8, &asked, (BLOCK, 1));
        assert_eq!(given, 0);
        let block = list.given.last().expect("a block was given").clone();
        assert_eq!(list.take(to, Own, archive, to as u8, &block), 0);
        if block[9] == 0 {
            return;
        }
    }
}
