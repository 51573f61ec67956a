//! The index: units that act and meet with theirs, over a link that changes
//! bytes. After each call it is the one made afresh, and it finds and lists what
//! the tree shows.

use crate::study::{End, Plan, Tally, Wrong, incorrect, manual};
use crate::world::{ARCHIVE, tree_of};
use library::{Library, folder_of};
use plain::{BLOCK, EMPTY_BASE, ENTRY_ROW, FILE, INDEX, LOG, TREE};
use workload::{Chance, Mix, vector_of, wish};

/// How many units there are.
const UNITS: usize = 4;

/// A unit's log and index.
#[derive(Clone)]
struct Unit {
    log: Vec<u8>,
    index: Vec<u8>,
}

/// Lives of four units; an experiment is a call.
pub fn kept(library: &dyn Library, plan: &Plan) -> Tally {
    let mut tally = Tally::default();
    for life in 0..plan.count(12, 600) {
        let mut chance = Chance::new(700 * plan.seed + life);
        let mix = *chance.pick(&[Mix::BENCH, Mix::CONFLICTS, Mix::CASES, Mix::MOVES]);
        let none = Unit {
            log: vec![0; LOG],
            index: vec![0; INDEX],
        };
        let mut units = vec![none; UNITS];
        for call in 0..plan.count(150, 600) {
            if !tally.goes_on(plan) {
                return tally;
            }
            let end = one(library, &mut units, &mut chance, &mix);
            tally.count(|| format!("life {life}, call {call}"), end);
        }
    }
    tally
}

fn one(library: &dyn Library, units: &mut [Unit], chance: &mut Chance, mix: &Mix) -> End {
    let own = chance.below(UNITS);
    match chance.below(12) {
        0 => take(library, units, chance, own, false)?,
        1 => take(library, units, chance, own, true)?,
        2 => asked(library, &units[own], chance)?,
        3 if chance.one_in(40) => {
            let Unit { log, index } = &mut units[own];
            if library.start(log, &mut EMPTY_BASE.clone(), index, ARCHIVE, own as u32) != Ok(()) {
                return incorrect("the start is refused");
            }
        }
        _ => act(library, &mut units[own], own, chance, mix)?,
    }
    let mut fresh = vec![0xa5; INDEX];
    if plain::index(&units[own].log, &EMPTY_BASE, &mut fresh).is_err() {
        return manual("a log that is not sound");
    }
    if units[own].index != fresh {
        return incorrect("the index is not the one made afresh");
    }
    Ok(false)
}

/// An act that fits, mostly.
fn act(
    library: &dyn Library,
    unit: &mut Unit,
    own: usize,
    chance: &mut Chance,
    mix: &Mix,
) -> Result<(), Wrong> {
    let mut tree = [0; TREE];
    if plain::show(&unit.log, &EMPTY_BASE, &mut tree).is_err() {
        return manual("a log that is not sound");
    }
    let mut wish = wish(chance, mix, own as u8, &tree);
    if chance.one_in(8) {
        wish[chance.below(80)] ^= 1 << chance.below(8);
    }
    let before = unit.clone();
    let done = library.act(&mut unit.log, &EMPTY_BASE, &mut unit.index, ARCHIVE, own as u32, &wish);
    if done.is_err() && (unit.log != before.log || unit.index != before.index) {
        return incorrect("refused, but log or index changed");
    }
    Ok(())
}

/// A block or a row of another unit, seldom with a changed byte.
fn take(
    library: &dyn Library,
    units: &mut [Unit],
    chance: &mut Chance,
    own: usize,
    by_row: bool,
) -> Result<(), Wrong> {
    let from = chance.below(UNITS);
    let asked = vector_of(&units[own].log);
    let mut row = vec![0; FILE];
    let blocks = plain::hand_out_row(&units[from].log, &EMPTY_BASE, ARCHIVE, from as u8, &asked, &mut row);
    row.truncate(BLOCK * usize::from(blocks.unwrap_or(0)));
    if !row.is_empty() && chance.one_in(4) {
        let at = chance.below(row.len());
        row[at] ^= 1 << chance.below(8);
    }
    let Unit { log, index } = &mut units[own];
    if by_row {
        return match library.take_row(log, &EMPTY_BASE, index, ARCHIVE, own as u32, &row) {
            Ok(_) => Ok(()),
            Err(refusal) => manual(format!("a row refused: {refusal:?}")),
        };
    }
    // A refusal is an answer; what it leaves is looked at behind every call.
    let Some(block) = row.chunks(BLOCK).next() else {
        return Ok(());
    };
    let _ = library.take(log, &EMPTY_BASE, index, ARCHIVE, own as u32, block);
    Ok(())
}

/// Every entry is found, under its label in any case, and one folder lists its
/// entries by label.
fn asked(library: &dyn Library, unit: &Unit, chance: &mut Chance) -> Result<(), Wrong> {
    let tree = tree_of(library, &unit.log)?;
    let count = usize::from(u16::from_le_bytes([tree[0], tree[1]]));
    let entries: Vec<&[u8]> = tree[4..].chunks(ENTRY_ROW).take(count).collect();
    for entry in &entries {
        let (own, number) = folder_of(&entry[4..8]);
        let mut label = entry[24..56].to_vec();
        for byte in label.iter_mut().filter(|byte| byte.is_ascii_alphabetic()) {
            *byte ^= (chance.below(2) as u8) << 5;
        }
        for label in [&entry[24..56], &label] {
            let found = library.find(&unit.index, folder_of(&entry[8..12]), label);
            if found != Ok(Some((own as u8, number as u16))) {
                return incorrect(format!("{found:?} found for {:?}", &entry[4..8]));
            }
        }
    }
    let folder = match entries.is_empty() || chance.one_in(3) {
        true => [0; 4],
        false => std::array::from_fn(|i| chance.pick(&entries)[4 + i]),
    };
    let mut inside: Vec<&&[u8]> = entries.iter().filter(|row| row[8..12] == folder).collect();
    inside.sort_by_key(|row| row[24..56].to_ascii_lowercase());
    let Ok(range) = library.list(&unit.index, folder_of(&folder)) else {
        return incorrect("the folder is not listed");
    };
    let rows = unit.index[4..].chunks(40).skip(range.first.into());
    let listed: Vec<&[u8]> = rows
        .take(range.count.into())
        .map(|row| &row[36..])
        .collect();
    let inside: Vec<&[u8]> = inside.into_iter().map(|row| &row[4..8]).collect();
    match listed == inside {
        true => Ok(()),
        false => incorrect("the folder lists other entries"),
    }
}
