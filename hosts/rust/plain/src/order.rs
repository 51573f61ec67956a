//! Checking another maker's order of replay.

use crate::base::{AsideRow, EntryRow, lent};
use crate::bytes::{get16, get32};
use crate::calls::{open_tree, records_of};
use crate::held::Places;
use crate::record::{Fields, Record};
use crate::replay::{Replay, Room, Source};
use crate::vector::Vector;
use crate::{Answer, ENTRY_ROW, RECORD, RECORDS, ROWS, TREE, refuse, table};

/// Checks an order, four bytes a name: unit, zero, number. Answers 0 if it is
/// accepted, else the condition that fails first: 1 it names each record once and
/// nothing else, 2 no record stands before one that it has seen, 3 the same entries
/// and asides are left. If the first two hold, both tables are written.
pub fn check_order(
    log: &[u8],
    base: &[u8],
    list: &[u8],
    ours: &mut [u8],
    theirs: &mut [u8],
) -> Answer<u16> {
    let (records, base) = (records_of(log)?, lent(base)?);
    let (Ok(ours), Ok(theirs)) = (
        <&mut [u8; TREE]>::try_from(ours),
        <&mut [u8; TREE]>::try_from(theirs),
    ) else {
        return refuse(1);
    };
    let mut places = Places::none();
    let mut room = Room::for_log(records, base);
    let mut replay = room.replay();
    let (base, held) = open_tree(records, base, &mut places, &mut replay)?;
    if base.vector != Vector::ZERO {
        return refuse(29);
    }
    let records = &records[..held.all];
    let mut laid = [[0; RECORD]; RECORDS];
    let laid = &mut laid[..records.len()];
    if !lay(laid, records, list, &places, held.vector) {
        return Ok(1);
    }
    if !is_causal(laid) {
        return Ok(2);
    }
    let source = |store| Source { base, store };
    table::write(ours, records.len(), &replay, &source(records));
    let source = source(&*laid);
    let mut room = Room::of(laid.len(), base.is_bare());
    let replay = Replay::of(&mut room, &source, laid.len());
    table::write(theirs, laid.len(), &replay, &source);
    Ok(if alike(ours, theirs) { 0 } else { 3 })
}

/// Lays the records in the order of their names; says whether each is named once,
/// and nothing else.
fn lay(
    laid: &mut [Record],
    records: &[Record],
    list: &[u8],
    places: &Places,
    held: Vector,
) -> bool {
    let (names, part) = list.as_chunks::<4>();
    if !part.is_empty() || names.len() != records.len() {
        return false;
    }
    let mut is_named = [false; RECORDS];
    for (to, name) in laid.iter_mut().zip(names) {
        let (unit, number) = (usize::from(name[0]), get16(name, 2));
        if unit > 7 || name[1] != 0 || number == 0 || number > held.count(unit) {
            return false;
        }
        let place = places.place(unit, number.into());
        if is_named[place] {
            return false;
        }
        is_named[place] = true;
        *to = records[place];
    }
    true
}

/// No record stands before one that it has seen. Each is named once, so those of a
/// unit that stand before are its first ones as long as this holds.
fn is_causal(laid: &[Record]) -> bool {
    let mut before = Vector::ZERO;
    laid.iter().all(|record| {
        let fields = Fields::of(record);
        let follows = fields.seen.within(before);
        before = before.and_one_of(fields.unit);
        follows
    })
}

/// The rows of a table.
fn rows(table: &[u8; TREE]) -> (&[EntryRow], &[AsideRow]) {
    let (counts, rows) = table.split_at(4);
    let (entries, asides) = rows.split_at(ROWS * ENTRY_ROW);
    let count = |at: usize| usize::from(get16(counts, at));
    (
        &entries.as_chunks().0[..count(0)],
        &asides.as_chunks().0[..count(2)],
    )
}

/// The place of an identity among those of 512 numbers of eight units.
fn key(identity: u32) -> usize {
    let (unit, number) = (identity as usize & 7, identity as usize >> 16);
    RECORDS * unit + number.wrapping_sub(1) % RECORDS
}

/// As many rows, and each of one among the others.
fn same_rows<const LENGTH: usize>(
    ours: &[[u8; LENGTH]],
    theirs: &[[u8; LENGTH]],
    identity: usize,
    is_same: impl Fn(&[u8; LENGTH], &[u8; LENGTH]) -> bool,
) -> bool {
    let mut places = [0u16; 8 * RECORDS];
    for (i, row) in theirs.iter().enumerate() {
        places[key(get32(row, identity))] = i as u16 + 1;
    }
    let is_among = |row: &[u8; LENGTH]| match places[key(get32(row, identity))] {
        0 => false,
        place => is_same(row, &theirs[usize::from(place) - 1]),
    };
    ours.len() == theirs.len() && ours.iter().all(is_among)
}

/// The tables show the same entries, whichever records gave them contents and place
/// last, and the same asides.
fn alike(ours: &[u8; TREE], theirs: &[u8; TREE]) -> bool {
    let ((entries, asides), (others, other_asides)) = (rows(ours), rows(theirs));
    let shown =
        |row: &EntryRow, other: &EntryRow| row[..12] == other[..12] && row[20..] == other[20..];
    same_rows(entries, others, 4, shown)
        && same_rows(asides, other_asides, 0, |row, other| row == other)
}
