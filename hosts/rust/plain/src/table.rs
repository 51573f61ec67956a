//! The tree table: counts of entries and asides, then their rows in rank order.

use crate::base::{AsideRow, EntryRow};
use crate::bytes::{put16, put32};
use crate::held::Store;
use crate::replay::{Kind, Replay, Source};
use crate::{ENTRY_ROW, ROWS, TREE};

/// Writes every byte of the table.
pub fn write(tree: &mut [u8; TREE], records: usize, replay: &Replay, source: &Source<impl Store>) {
    let disputed = replay.disputed();
    let (counts, rows) = tree.split_at_mut(4);
    let (entry_rows, aside_rows) = rows.split_at_mut(ROWS * ENTRY_ROW);
    let (entry_rows, _) = entry_rows.as_chunks_mut();
    let (aside_rows, _) = aside_rows.as_chunks_mut();
    let entries = write_entries(entry_rows, records, replay, source, |slot| disputed[slot]);
    let asides = write_asides(aside_rows, records, replay, source);
    put16(counts, 0, entries as u16);
    put16(counts, 2, asides as u16);
    entry_rows[entries..].as_flattened_mut().fill(0);
    aside_rows[asides..].as_flattened_mut().fill(0);
}

/// Writes the rows of the entries that are present; how many.
pub fn write_entries(
    rows: &mut [EntryRow],
    records: usize,
    replay: &Replay,
    source: &Source<impl Store>,
    is_disputed: impl Fn(usize) -> bool,
) -> usize {
    let mut used = 0;
    for slot in Replay::slots(&source.base, records) {
        let entry = &replay.entries[slot];
        if entry.kind == Kind::Absent {
            continue;
        }
        let row = &mut rows[used];
        used += 1;
        let (date, mark) = source.contents(entry.contents.slot);
        put32(row, 0, entry.kind as u32 | (is_disputed(slot) as u32) << 8);
        put32(row, 4, replay.identities[slot]);
        put32(row, 8, replay.identities[entry.folder as usize]);
        put32(row, 12, entry.contents.identity);
        put32(row, 16, entry.placing.identity);
        row[20..24].copy_from_slice(date);
        row[24..56].copy_from_slice(source.label(entry.placing.slot));
        row[56..].copy_from_slice(mark);
    }
    used
}

/// Writes the rows of the asides; how many.
pub fn write_asides(
    rows: &mut [AsideRow],
    records: usize,
    replay: &Replay,
    source: &Source<impl Store>,
) -> usize {
    let mut used = 0;
    for at in Replay::fate_slots(&source.base, records) {
        let fate = replay.fates[at];
        if fate.reason == 0 {
            continue;
        }
        let row = &mut rows[used];
        used += 1;
        put32(row, 0, replay.identity_aside(&source.base, at));
        put32(row, 4, fate.reason as u32 | (1 + fate.settled as u32) << 8);
        put32(row, 8, fate.marks);
    }
    used
}
