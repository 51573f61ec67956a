//! Rows of blocks, and the report of a trial.

use crate::base::lent;
use crate::block::{self, Block, Header, SAB1};
use crate::bytes::{get16, put16, put32};
use crate::calls::{open, open_tree, records_of, unit_fits};
use crate::held::Places;
use crate::index;
use crate::record::Record;
use crate::replay::{Kind, Replay, Room, Source};
use crate::taken::{New, Taken, take_blocks};
use crate::vector::Vector;
use crate::{Answer, BASE, BLOCK, BLOCKS, FILE, LOG, PER_BLOCK, RECORD, RECORDS, ROWS, TREE};
use crate::{refuse, table};

/// Bytes of the report of a row that is tried.
pub const REPORT: usize = 20 + ROWS * 4;

/// How far a row was taken.
#[derive(Clone, Copy, Debug, PartialEq, Eq)]
pub struct RowTaken {
    pub taken: u8,
    pub stopped: u8,
}

impl RowTaken {
    fn of(taken: &Taken) -> RowTaken {
        RowTaken {
            taken: taken.blocks as u8,
            stopped: taken.stopped,
        }
    }
}

/// Writes all blocks of what the asked vector lacks; answers how many.
pub fn hand_out_row(
    log: &[u8],
    base: &[u8],
    archive: u32,
    unit: u8,
    asked: &[u16; 8],
    row: &mut [u8],
) -> Answer<u16> {
    let (records, base) = (records_of(log)?, lent(base)?);
    if row.len() != FILE {
        return refuse(1);
    }
    unit_fits(unit)?;
    let (base, held) = open(records, base, &mut Places::none())?;
    if !base.vector.within(Vector::of(asked)) {
        return refuse(27);
    }
    let header = Header {
        archive,
        unit,
        vector: held.vector,
    };
    let is_lacked = |record: &&Record| get16(*record, 2) > asked[usize::from(record[0] & 7)];
    let (blocks, _) = row.as_chunks_mut::<BLOCK>();
    let (mut used, mut count) = (0, 0);
    for record in records[..held.all].iter().filter(is_lacked) {
        block::put_record(&mut blocks[used], count, record);
        count += 1;
        if count == PER_BLOCK {
            block::finish(&mut blocks[used], SAB1, &header, count, 0);
            (used, count) = (used + 1, 0);
        }
    }
    if count > 0 {
        block::finish(&mut blocks[used], SAB1, &header, count, 0);
        used += 1;
    }
    blocks[used..].as_flattened_mut().fill(0);
    Ok(used as u16)
}

/// 1, 21, 2: the blocks of a row.
fn blocks_of<'a>(
    log: &[u8],
    base: &[u8],
    unit: u8,
    lent: bool,
    row: &'a [u8],
) -> Answer<&'a [Block]> {
    if log.len() != LOG || base.len() != BASE || !lent {
        return refuse(1);
    }
    unit_fits(unit)?;
    match row.as_chunks() {
        (blocks, []) if blocks.len() <= BLOCKS => Ok(blocks),
        _ => refuse(2),
    }
}

/// Takes the blocks of a row in turn, up to the first that is refused. If one was
/// taken, the index is made afresh, if one is lent.
pub fn take_row(
    log: &mut [u8],
    base: &[u8],
    index: &mut [u8],
    archive: u32,
    unit: u8,
    row: &[u8],
) -> Answer<RowTaken> {
    let blocks = blocks_of(log, base, unit, index::fits(index), row)?;
    let (records, _) = log.as_chunks_mut::<RECORD>();
    let mut places = Places::none();
    let state = open(records, lent(base)?, &mut places)?;
    let mut new = [New::default(); RECORDS];
    let taken = take_blocks(records, &state, &mut places, archive, blocks, &mut new);
    if taken.blocks > 0 {
        index::renew(records, &state.0, taken.held, index);
    }
    Ok(RowTaken::of(&taken))
}

/// Tries a row on a copy of the log.
pub fn try_row(
    log: &[u8],
    base: &[u8],
    archive: u32,
    unit: u8,
    row: &[u8],
    copy: &mut [u8],
    tree: &mut [u8],
    report: &mut [u8],
) -> Answer<()> {
    let is_lent = copy.len() == LOG && report.len() == REPORT;
    let Ok(tree) = <&mut [u8; TREE]>::try_from(tree) else {
        return refuse(1);
    };
    let blocks = blocks_of(log, base, unit, is_lent, row)?;
    let mut places = Places::none();
    let (records, base) = (records_of(log)?, lent(base)?);
    let mut room = Room::for_log(records, base);
    let mut before = room.replay();
    let state = open_tree(records, base, &mut places, &mut before)?;
    let (base, held) = state;
    copy.copy_from_slice(log);
    let (records, _) = copy.as_chunks_mut::<RECORD>();
    let mut new = [New::default(); RECORDS];
    let taken = take_blocks(records, &state, &mut places, archive, blocks, &mut new);
    let source = Source {
        base,
        store: &*records,
    };
    let mut room = Room::of(taken.held, base.is_bare());
    let after = Replay::of(&mut room, &source, taken.held);
    table::write(tree, taken.held, &after, &source);

    report.fill(0);
    report[0] = taken.blocks as u8;
    report[1] = taken.stopped;
    taken.vector.write(report, 4);
    let (was, is) = (before.disputed(), after.disputed());
    let is_shown = |replay: &Replay, slot: usize| replay.entries[slot].kind != Kind::Absent;
    let mut count = 0;
    for slot in Replay::slots(&base, taken.held) {
        if !is[slot] || !is_shown(&after, slot) {
            continue;
        }
        let entry = after.identities[slot];
        let is_new = entry >> 16 > u32::from(held.vector.count(entry as usize & 7));
        let old = usize::from(before.slot_named(&places, entry));
        if is_new || !was[old] || !is_shown(&before, old) {
            put32(report, 20 + 4 * count, entry);
            count += 1;
        }
    }
    put16(report, 2, count as u16);
    Ok(())
}
