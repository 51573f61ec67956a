//! The ordered index: the entries of a tree by folder and label, A to Z as a to
//! z. It is made afresh from a replay, changed by one record, and asked by
//! halving. Any bytes may be asked.

use crate::base::{self, Base};
use crate::bytes::{get16, get32, get64, put16, put32};
use crate::calls::{open_tree, records_of};
use crate::held::{Places, Store};
use crate::record::{
    Fields, Label, MAKE_FOLDER, MAKE_TRACE, MOVE, REMOVE, RENAME, Record, label_in, lower,
};
use crate::replay::{Entry, Kind, Replay, Room, Source};
use crate::{Answer, ROWS, refuse};

/// Bytes of an index row: folder, label, entry.
const ROW: usize = 40;
/// Bytes of the index: a count, two zeros, 1,024 rows.
pub const INDEX: usize = 4 + ROWS * ROW;

type Row = [u8; ROW];

/// The rows of a folder: the first, and how many.
#[derive(Clone, Copy, Debug, PartialEq, Eq)]
pub struct Range {
    pub first: u16,
    pub count: u16,
}

/// An index is lent, or no bytes are.
pub fn fits(index: &[u8]) -> bool {
    index.is_empty() || index.len() == INDEX
}

/// An identity as one number, eight times its number and its unit.
type Name = u32;

/// The key of a folder: by unit, then by number.
#[inline(always)]
fn key_of(folder: Name) -> u64 {
    u64::from(folder % 8) << 29 | u64::from(folder / 8)
}

/// The identity in four bytes, read as a number. The second byte is not looked
/// at, and a unit above 7 counts on into the number.
#[inline(always)]
fn name_of(identity: u32) -> Name {
    8 * (identity >> 16) + (identity & 0xff)
}

/// The folder of a unit and a number. What is no identity is no entry's folder.
#[inline(always)]
fn folder_asked(unit: u32, number: u32) -> Name {
    if unit > 7 || number > 0xffff {
        return Name::MAX;
    }
    8 * number + unit
}

/// How many rows, at most 1,024.
#[inline(always)]
fn rows_in(index: &[u8]) -> usize {
    usize::from(get16(index, 0)).min(ROWS)
}

#[inline(always)]
fn rows(index: &[u8]) -> &[Row] {
    index[4..].as_chunks().0
}

/// What of a label counts, in the order of labels: A to Z as a to z, any other byte
/// as it is, the first byte highest.
type Order = [u64; 4];

#[inline(always)]
fn order_of(label: &[u8]) -> Order {
    core::array::from_fn(|i| lower(get64(label, 8 * i)).swap_bytes())
}

/// The row comes before what counts of a label in the folder of a key.
#[inline(always)]
fn is_before(row: &Row, key: u64, label: &Order) -> bool {
    let own = key_of(name_of(get32(row, 0)));
    own < key || own == key && order_of(&row[4..36]) < *label
}

/// The first row that does not come before a label in the folder of a key.
#[inline(always)]
fn seek(index: &[u8], key: u64, label: &Order) -> usize {
    let rows = rows(index);
    // In any bytes the halvings are these, so `partition_point` will not do.
    let (mut low, mut high) = (0, rows_in(index));
    while low < high {
        let middle = low + (high - low) / 2;
        if is_before(&rows[middle], key, label) {
            low = middle + 1;
        } else {
            high = middle;
        }
    }
    low
}

/// The row of a folder and a label, if they have one.
fn row_of(index: &[u8], folder: Name, label: &[u8]) -> Option<usize> {
    let label = order_of(label);
    let at = seek(index, key_of(folder), &label);
    let row = rows(index)[..rows_in(index)].get(at)?;
    let is_here = name_of(get32(row, 0)) == folder;
    (is_here && order_of(&row[4..36]) == label).then_some(at)
}

/// Looks up the entry of a folder that has a label: its unit and number, if there
/// is one.
pub fn find(index: &[u8], unit: u32, number: u32, label: &[u8]) -> Answer<Option<(u8, u16)>> {
    if index.len() != INDEX || label.len() != 32 {
        return refuse(1);
    }
    let row = row_of(index, folder_asked(unit, number), label);
    let name = row.map_or(0, |row| name_of(get32(&rows(index)[row], 36)));
    let entry = ((name % 8) as u8, (name / 8) as u16);
    Ok((entry != (0, 0)).then_some(entry))
}

/// The rows of a folder.
pub fn list(index: &[u8], unit: u32, number: u32) -> Answer<Range> {
    if index.len() != INDEX {
        return refuse(1);
    }
    let key = key_of(folder_asked(unit, number));
    let first = seek(index, key, &[0; 4]);
    let end = seek(index, key + 1, &[0; 4]);
    Ok(Range {
        first: first as u16,
        count: end.saturating_sub(first) as u16,
    })
}

/// Makes the index of a log and its base afresh.
pub fn index(log: &[u8], base: &[u8], index: &mut [u8]) -> Answer<()> {
    let (records, base) = (records_of(log)?, base::lent(base)?);
    if index.len() != INDEX {
        return refuse(1);
    }
    let mut room = Room::for_log(records, base);
    let mut replay = room.replay();
    let (base, held) = open_tree(records, base, &mut Places::none(), &mut replay)?;
    let source = Source {
        base,
        store: records,
    };
    write(index, held.all, &replay, &source);
    Ok(())
}

/// Makes the index of so many records, known to be sound, afresh, if one is lent.
pub fn renew(records: &[Record], base: &Base, held: usize, index: &mut [u8]) {
    if index.is_empty() {
        return;
    }
    let source = Source {
        base: *base,
        store: records,
    };
    let mut room = Room::of(held, base.is_bare());
    write(index, held, &Replay::of(&mut room, &source, held), &source);
}

/// The identity of an entry's folder.
fn folder_of(replay: &Replay, entry: &Entry) -> u32 {
    replay.identities[usize::from(entry.folder)]
}

/// Writes every byte of the index.
fn write(index: &mut [u8], records: usize, replay: &Replay, source: &Source<impl Store>) {
    const SLOT: u32 = 13;
    let slot_in = |key: u128| key as usize % (1 << SLOT);
    let order = |slot: usize| order_of(source.label(replay.entries[slot].placing.slot));
    // Of each entry, from the top: unit and number of its folder, twelve bytes of its
    // label, its slot.
    let mut keys = [0u128; ROWS];
    let mut count = 0;
    for slot in Replay::slots(&source.base, records) {
        let entry = &replay.entries[slot];
        if entry.kind != Kind::Absent {
            let folder = folder_of(replay, entry);
            let folder = u128::from(folder & 7) << 16 | u128::from(folder >> 16);
            let label = order(slot);
            let front = u128::from(label[0]) << 32 | u128::from(label[1] >> 32);
            keys[count] = (folder << 96 | front) << SLOT | slot as u128;
            count += 1;
        }
    }
    let keys = &mut keys[..count];
    keys.sort_unstable();
    for alike in keys.chunk_by_mut(|a, b| a >> SLOT == b >> SLOT) {
        alike.sort_unstable_by_key(|key| order(slot_in(*key)));
    }
    let (head, rows) = index.split_at_mut(4);
    put32(head, 0, count as u32);
    let (rows, unused) = rows.as_chunks_mut::<ROW>().0.split_at_mut(count);
    for (row, key) in rows.iter_mut().zip(&*keys) {
        let slot = slot_in(*key);
        let entry = &replay.entries[slot];
        put32(row, 0, folder_of(replay, entry));
        row[4..36].copy_from_slice(source.label(entry.placing.slot));
        put32(row, 36, replay.identities[slot]);
    }
    unused.as_flattened_mut().fill(0);
}

/// An entry's row before a record changes the tree.
#[derive(Clone, Copy)]
pub struct Before<'a> {
    folder: u32,
    label: &'a Label,
    entry: u32,
}

impl<'a> Before<'a> {
    /// Of the entry that a remove, a rename or a move names, if it is there.
    pub fn of(
        replay: &Replay,
        places: &Places,
        source: &'a Source<impl Store>,
        fields: &Fields,
    ) -> Option<Before<'a>> {
        let entry = replay.entry_named(places, fields.named);
        let is_there = entry.kind != Kind::Absent && fields.named != 0;
        is_there.then(|| Before {
            folder: folder_of(replay, entry),
            label: source.label(entry.placing.slot),
            entry: fields.named,
        })
    }
}

/// Changes the index as a record that fits changes the tree.
pub fn change(index: &mut [u8], fields: &Fields, before: Option<Before>) {
    let label = label_in(fields.record);
    match (fields.operation, before) {
        (MAKE_FOLDER | MAKE_TRACE, _) => put_in(index, fields.named, label, fields.identity()),
        (REMOVE, Some(before)) => take_out(index, before.folder, before.label),
        (RENAME, Some(before)) => {
            take_out(index, before.folder, before.label);
            put_in(index, before.folder, label, before.entry);
        }
        (MOVE, Some(before)) => {
            take_out(index, before.folder, before.label);
            put_in(index, fields.folder, label, before.entry);
        }
        _ => (),
    }
}

/// Puts an entry in by its folder and label, if there is room.
fn put_in(index: &mut [u8], folder: u32, label: &[u8], entry: u32) {
    let count = rows_in(index);
    if count == ROWS {
        return;
    }
    let at = seek(index, key_of(name_of(folder)), &order_of(label));
    let rows = index[4..].as_chunks_mut::<ROW>().0;
    rows.copy_within(at..count, at + 1);
    let row = &mut rows[at];
    put32(row, 0, folder);
    row[4..36].copy_from_slice(label);
    put32(row, 36, entry);
    put16(index, 0, count as u16 + 1);
}

/// Takes the entry of a folder and a label out, if there is one.
fn take_out(index: &mut [u8], folder: u32, label: &[u8]) {
    let Some(at) = row_of(index, name_of(folder), label) else {
        return;
    };
    let count = rows_in(index);
    let rows = index[4..].as_chunks_mut::<ROW>().0;
    rows.copy_within(at + 1..count, at);
    rows[count - 1].fill(0);
    put16(index, 0, count as u16 - 1);
}
