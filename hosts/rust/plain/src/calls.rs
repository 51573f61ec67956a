//! The entry points.

use crate::base::{self, Base, lists_all};
use crate::block::{self, Block, Header, SAB1};
use crate::bytes::{all_zero, get64};
use crate::held::{Counts, Places};
use crate::index::{self, Before};
use crate::record::{Fields, Record, body_fits, well_formed};
use crate::replay::{Replay, Room, Source, slot_of};
use crate::taken::{New, take_blocks};
use crate::vector::Vector;
use crate::{Answer, BASE, LOG, PER_BLOCK, RECORD, RECORDS, TREE, refuse, table};

/// Goes once over a lent log behind a base and counts it, if it is sound and
/// every unit that is counted is listed. Each record is shown to `each` with its
/// place after its own check.
#[inline(always)]
fn scan(
    log: &[Record],
    base: &Base,
    places: &mut Places,
    mut each: impl FnMut(&Places, &Fields, usize),
) -> Option<Counts> {
    let mut held = Counts::on(base.vector);
    for (place, record) in log.iter().enumerate() {
        if get64(record, 0) == 0 {
            if !all_zero(log[place..].as_flattened()) {
                return None;
            }
            break;
        }
        if !well_formed(record) {
            return None;
        }
        let fields = Fields::of(record);
        if !(held.are_before(&fields) && held.rank_before(&fields) && places.are_closed(&fields)) {
            return None;
        }
        held.add(&fields);
        places.add(&fields, place);
        each(places, &fields, place);
    }
    lists_all(base.list, held.vector).then_some(held)
}

/// What a sound state has: its base, and its counts.
pub type State<'a> = (Base<'a>, Counts);

/// The state in a log and a base, or 19; where its records stand.
#[inline(always)]
pub fn open<'a>(log: &[Record], base: &'a [u8; BASE], places: &mut Places) -> Answer<State<'a>> {
    let mut read = || {
        let base = Base::of(base)?;
        places.begin_on(base.vector);
        let held = scan(log, &base, places, |_, _, _| ())?;
        base.tree_fits().then_some((base, held))
    };
    read().map_or(refuse(19), Ok)
}

/// The same, with its tree.
#[inline(always)]
pub fn open_tree<'a>(
    log: &[Record],
    base: &'a [u8; BASE],
    places: &mut Places,
    replay: &mut Replay,
) -> Answer<State<'a>> {
    open_trees(log, base, places, replay, |_, _| ())
}

/// The same; the tree after each record is shown to `each` with its place.
#[inline(always)]
pub fn open_trees<'a>(
    log: &[Record],
    base: &'a [u8; BASE],
    places: &mut Places,
    replay: &mut Replay,
    mut each: impl FnMut(&Replay, usize),
) -> Answer<State<'a>> {
    let mut read = || {
        let base = Base::of(base)?;
        if !replay.enter(&base) {
            return None;
        }
        let source = Source { base, store: log };
        places.begin_on(base.vector);
        let held = scan(log, &base, places, |places, fields, place| {
            replay.step(places, &source, fields, place);
            each(replay, place);
        })?;
        Some((base, held))
    };
    read().map_or(refuse(19), Ok)
}

/// The records of a lent log, if it has its length.
pub fn records_of(log: &[u8]) -> Answer<&[Record]> {
    match log.len() {
        LOG => Ok(log.as_chunks().0),
        _ => refuse(1),
    }
}

/// An own unit is 0 to 7.
pub fn unit_fits(unit: u8) -> Answer<()> {
    match unit {
        0..8 => Ok(()),
        _ => refuse(21),
    }
}

/// The lent log and base are sound.
pub fn sound(log: &[u8], base: &[u8]) -> bool {
    vector(log, base).is_ok()
}

/// The held vector: how many records of each unit, folded ones with them.
pub fn vector(log: &[u8], base: &[u8]) -> Answer<[u16; 8]> {
    let (records, base) = (records_of(log)?, base::lent(base)?);
    let (_, held) = open(records, base, &mut Places::none())?;
    Ok(core::array::from_fn(|unit| held.vector.count(unit)))
}

/// Empties a log, its base, and its index if one is lent.
pub fn start(
    log: &mut [u8],
    base: &mut [u8],
    index: &mut [u8],
    _archive: u32,
    unit: u8,
) -> Answer<()> {
    if !index::fits(index) || log.len() != LOG || base.len() != BASE {
        return refuse(1);
    }
    unit_fits(unit)?;
    log.fill(0);
    base::empty(base);
    index.fill(0);
    Ok(())
}

/// Makes the wished record, if it fits. Its one change goes into the index, if
/// one is lent.
pub fn act(
    log: &mut [u8],
    base: &[u8],
    index: &mut [u8],
    _archive: u32,
    unit: u8,
    wish: &[u8],
) -> Answer<()> {
    if !index::fits(index) || log.len() != LOG {
        return refuse(1);
    }
    let base = base::lent(base)?;
    let Ok(wish) = <&Record>::try_from(wish) else {
        return refuse(1);
    };
    unit_fits(unit)?;
    let (records, _) = log.as_chunks_mut::<RECORD>();
    let mut places = Places::none();
    let mut room = Room::for_log(records, base);
    let mut replay = room.replay();
    let (base, held) = open_tree(records, base, &mut places, &mut replay)?;
    if !base.lists(unit as usize) {
        return refuse(26);
    }
    let record = stamped(wish, unit, held.vector)?;
    if wish[32..64].contains(&b'/') {
        return refuse(24);
    }
    if held.vector.count(unit as usize) == u16::MAX {
        return refuse(28);
    }
    if held.all == RECORDS {
        return refuse(11);
    }
    let fields = Fields::of(&record);
    let source = Source {
        base,
        store: &*records,
    };
    let before = Before::of(&replay, &places, &source, &fields);
    replay.step(&places, &source, &fields, held.all);
    match replay.fates[slot_of(held.all)].reason {
        0 => (),
        reason => return refuse(reason),
    }
    if !index.is_empty() {
        index::change(index, &fields, before);
    }
    records[held.all] = record;
    Ok(())
}

/// The wish with its number and the held vector, if it is well formed. Behind
/// 65,535 there is no next number, and the others of its fields are judged.
fn stamped(wish: &Record, unit: u8, held: Vector) -> Answer<Record> {
    let mut record = *wish;
    let number = held.count(unit as usize).wrapping_add(1);
    record[2..4].copy_from_slice(&number.to_le_bytes());
    held.write(&mut record, 4);
    if wish[0] != unit || wish[2..20] != [0; 18] || !body_fits(&record) {
        return refuse(7);
    }
    Ok(record)
}

/// Writes a block of the first six or fewer records that the asked vector lacks.
pub fn hand_out(
    log: &[u8],
    base: &[u8],
    archive: u32,
    unit: u8,
    asked: &[u16; 8],
    block: &mut [u8],
) -> Answer<()> {
    let (records, base) = (records_of(log)?, base::lent(base)?);
    let Ok(block) = <&mut Block>::try_from(block) else {
        return refuse(1);
    };
    unit_fits(unit)?;
    let mut places = Places::none();
    let (base, held) = open(records, base, &mut places)?;
    if !base.vector.within(Vector::of(asked)) {
        return refuse(27);
    }
    // The place of each unit's first record that is lacked and not yet given.
    let mut after = *asked;
    let place_after = |unit: usize, count: u16| {
        if count < held.vector.count(unit) {
            places.place(unit, count as usize + 1)
        } else {
            RECORDS
        }
    };
    let mut lacked: [usize; 8] = core::array::from_fn(|unit| place_after(unit, after[unit]));
    let mut count = 0;
    while count < PER_BLOCK {
        let unit = (1..8).fold(0, |least, unit| {
            if lacked[unit] < lacked[least] {
                unit
            } else {
                least
            }
        });
        if lacked[unit] >= RECORDS {
            break;
        }
        block::put_record(block, count, &records[lacked[unit]]);
        after[unit] += 1;
        lacked[unit] = place_after(unit, after[unit]);
        count += 1;
    }
    let header = Header {
        archive,
        unit,
        vector: held.vector,
    };
    block::finish(block, SAB1, &header, count, 0);
    Ok(())
}

/// Takes a block wholly or not at all. The index is made afresh, if one is lent.
pub fn take(
    log: &mut [u8],
    base: &[u8],
    index: &mut [u8],
    archive: u32,
    unit: u8,
    block: &[u8],
) -> Answer<()> {
    if !index::fits(index) || log.len() != LOG {
        return refuse(1);
    }
    let base = base::lent(base)?;
    unit_fits(unit)?;
    let (records, _) = log.as_chunks_mut::<RECORD>();
    let mut places = Places::none();
    let state = open(records, base, &mut places)?;
    let Ok(block) = <&Block>::try_from(block) else {
        return refuse(2);
    };
    let row = core::slice::from_ref(block);
    let mut new = [New::default(); PER_BLOCK];
    let taken = take_blocks(records, &state, &mut places, archive, row, &mut new);
    match taken.stopped {
        0 => (),
        number => return refuse(number),
    }
    index::renew(records, &state.0, taken.held, index);
    Ok(())
}

/// Shows the tree of a log and its base: every byte of the lent table.
pub fn show(log: &[u8], base: &[u8], tree: &mut [u8]) -> Answer<()> {
    let (records, base) = (records_of(log)?, base::lent(base)?);
    let Ok(tree) = <&mut [u8; TREE]>::try_from(tree) else {
        return refuse(1);
    };
    let mut room = Room::for_log(records, base);
    let mut replay = room.replay();
    let (base, held) = open_tree(records, base, &mut Places::none(), &mut replay)?;
    let source = Source {
        base,
        store: records,
    };
    table::write(tree, held.all, &replay, &source);
    Ok(())
}
