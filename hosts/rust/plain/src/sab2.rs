//! The SAB2 file: list and base in rows of 80 bytes, six a block, then the records
//! in blocks of their own.
//!
//! Row 0 is the head: 0 the list, 1 zero, 2-3 how many entries, 4-5 how many
//! asides, 6-7 zero, 8-23 the base vector. Then come a row for each entry, 72
//! bytes, and a row for each six asides, 12 bytes each. Zeros stand behind.

use crate::base::{self, Base, lists_all};
use crate::block::{self, Block, Header, Letters, SAB1, SAB2};
use crate::bytes::{all_zero, get16};
use crate::calls::{open, records_of, unit_fits};
use crate::file::{
    Blocks, Head, blocks_of, check_blocks, check_counts, check_file, check_records, copy_out,
    lay_none, lay_records, whole_blocks,
};
use crate::held::{Counts, Places, Store};
use crate::record::{Fields, Record};
use crate::vector::Vector;
use crate::{Answer, BASE, BASE_ROWS, BLOCK, BLOCKS, ENTRY_ROW, FILE, PER_BLOCK, refuse};

/// Asides that a row has.
const PER_ROW: usize = 6;
/// Rows of the greatest base.
const MOST_ROWS: usize = row_count(BASE_ROWS, BASE_ROWS);
/// Blocks of the longest SAB2 file.
pub const SAB2_BLOCKS: usize = MOST_ROWS.div_ceil(PER_BLOCK) + BLOCKS;
/// Bytes lent for writing an SAB2 file.
pub const SAB2_FILE: usize = SAB2_BLOCKS * BLOCK;

/// The rows of a base with so many entries and asides.
const fn row_count(entries: usize, asides: usize) -> usize {
    1 + entries + asides.div_ceil(PER_ROW)
}

/// The form is chosen by the first four bytes.
pub fn begins(file: &[u8]) -> bool {
    file.starts_with(&SAB2)
}

/// Writes list, base and log as an SAB2 file; answers its count of blocks.
pub fn write_sab2(log: &[u8], base: &[u8], archive: u32, unit: u8, file: &mut [u8]) -> Answer<u16> {
    let (records, base) = (records_of(log)?, base::lent(base)?);
    let blocks = lent_blocks(file, SAB2_FILE)?;
    unit_fits(unit)?;
    let (base, held) = open(records, base, &mut Places::none())?;
    let header = Header {
        archive,
        unit,
        vector: held.vector,
    };
    let first = lay_rows(&base, &header, blocks);
    let rest = &mut blocks[first..];
    let used = first + lay_records(&records[..held.all], SAB2, &header, first, rest);
    Ok(clear_behind(blocks, used))
}

/// The blocks of memory lent for a file, if it has its length.
fn lent_blocks(file: &mut [u8], length: usize) -> Answer<&mut [Block]> {
    if file.len() != length {
        return refuse(1);
    }
    Ok(file.as_chunks_mut().0)
}

/// Zeros behind the blocks that are used; how many are.
fn clear_behind(blocks: &mut [Block], used: usize) -> u16 {
    blocks[used..].as_flattened_mut().fill(0);
    used as u16
}

/// Lays the rows of a base in blocks; how many.
fn lay_rows(base: &Base, header: &Header, blocks: &mut [Block]) -> usize {
    let rows = row_count(base.entries.len(), base.asides.len());
    let used = rows.div_ceil(PER_BLOCK);
    for (place, block) in blocks[..used].iter_mut().enumerate() {
        let first = place * PER_BLOCK;
        let count = (rows - first).min(PER_BLOCK);
        for i in 0..count {
            put_row(base, first + i, block::record_mut(block, i));
        }
        block::finish(block, SAB2, header, count, place);
    }
    used
}

/// Writes a row of a base.
fn put_row(base: &Base, i: usize, row: &mut Record) {
    row.fill(0);
    match i.checked_sub(1) {
        None => base.put_head(row),
        Some(i) if i < base.entries.len() => row[..ENTRY_ROW].copy_from_slice(&base.entries[i]),
        Some(i) => {
            let first = PER_ROW * (i - base.entries.len());
            let end = base.asides.len().min(first + PER_ROW);
            let asides = base.asides[first..end].as_flattened();
            row[..asides.len()].copy_from_slice(asides);
        }
    }
}

/// An SAB2 file in its two parts, and what its headers say.
pub struct Parts<'a> {
    pub header: Header,
    rows: Blocks<'a>,
    pub records: Blocks<'a>,
}

impl Parts<'_> {
    /// The parts of a file whose blocks pass.
    pub fn of(file: &[u8]) -> Answer<Parts<'_>> {
        let blocks = whole_blocks(file, SAB2_BLOCKS)?;
        // Any bytes say some number of rows; block 0 is judged first.
        let (entries, asides) = said(block::record(&blocks[0], 0));
        let rows = row_count(entries, asides);
        let first = rows.div_ceil(PER_BLOCK);
        let is_last = |place: usize| place + 1 == blocks.len();
        let header = check_blocks(blocks, SAB2, |place, count| {
            if place < first {
                let left = rows - PER_BLOCK * place;
                count == left.min(PER_BLOCK) && (!is_last(place) || place + 1 == first)
            } else {
                count == PER_BLOCK || is_last(place) && count != 0
            }
        })?;
        let (rows, records) = blocks.split_at(first);
        Ok(Parts {
            header,
            rows: Blocks(rows),
            records: Blocks(records),
        })
    }

    /// List and base, laid into memory, but for its tree, which is not yet judged.
    pub fn base<'b>(&self, made: &'b mut [u8; BASE]) -> Answer<Base<'b>> {
        if !gather(&self.rows, made) {
            return refuse(31);
        }
        match Base::of(made) {
            Some(base) if lists_all(base.list, base.vector) => Ok(base),
            _ => refuse(31),
        }
    }

    /// Checks the records behind the base, and the vector; how many they are.
    #[inline(always)]
    pub fn check(
        &self,
        base: &Base,
        places: &mut Places,
        each: impl FnMut(&Places, &Fields, usize),
    ) -> Answer<Counts> {
        let (rows, records) = (self.rows.0.len(), self.records.0.len());
        let held = check_records(self.records, rows, base, places, each)?;
        check_counts(&self.header, &held, rows + records)?;
        Ok(held)
    }
}

/// How many entries and asides a head says.
fn said(head: &Record) -> (usize, usize) {
    (get16(head, 2).into(), get16(head, 4).into())
}

/// Copies the bytes of a row; says whether zeros stand behind them.
fn load(row: &Record, bytes: &mut [u8]) -> bool {
    let (used, behind) = row.split_at(bytes.len());
    bytes.copy_from_slice(used);
    all_zero(behind)
}

/// Lays the bytes of rows into a base; says whether they keep the layout.
fn gather(rows: &Blocks, made: &mut [u8; BASE]) -> bool {
    let head = rows.record(0);
    let (entries, asides) = said(head);
    if entries > BASE_ROWS || asides > BASE_ROWS {
        return false;
    }
    let (bytes, entry_rows, aside_rows) = base::parts_mut(made);
    let mut fits = load(head, bytes);
    for (i, row) in entry_rows[..entries].iter_mut().enumerate() {
        fits &= load(rows.record(1 + i), row);
    }
    for (i, six) in aside_rows[..asides].chunks_mut(PER_ROW).enumerate() {
        fits &= load(rows.record(1 + entries + i), six.as_flattened_mut());
    }
    fits
}

/// Checks an SAB2 file wholly: its parts, its base, and the count of its records.
fn checked<'a, 'b>(
    file: &'a [u8],
    made: &'b mut [u8; BASE],
) -> Answer<(Parts<'a>, Base<'b>, Counts)> {
    let parts = Parts::of(file)?;
    let base = parts.base(made)?;
    if !base.tree_fits() {
        return refuse(31);
    }
    let held = parts.check(&base, &mut Places::none(), |_, _, _| ())?;
    Ok((parts, base, held))
}

/// Reads an SAB2 file into a log and a base of their lengths.
pub fn read(log: &mut [u8], base: &mut [u8], file: &[u8]) -> Answer<Head> {
    let mut made = [0; BASE];
    let (parts, _, held) = checked(file, &mut made)?;
    base.copy_from_slice(&made);
    Ok(copy_out(parts.records, &parts.header, &held, log))
}

/// Lays the records of some blocks in others, places from the first on; how many.
fn lay_again(
    from: Blocks,
    letters: Letters,
    header: &Header,
    first: usize,
    blocks: &mut [Block],
) -> usize {
    for (i, (from, block)) in from.0.iter().zip(blocks).enumerate() {
        *block = *from;
        block::finish(block, letters, header, block::count(from), first + i);
    }
    from.0.len()
}

/// Makes an SAB2 file of an SAB1 file, with an empty base and all units listed;
/// answers its count of blocks.
pub fn to_sab2(file: &[u8], out: &mut [u8]) -> Answer<u16> {
    let out = lent_blocks(out, SAB2_FILE)?;
    let blocks = blocks_of(file)?;
    let (header, held) = check_file(blocks, &mut Places::none(), |_, _, _| ())?;
    let first = lay_rows(&base::EMPTY, &header, out);
    let records = Blocks(&blocks.0[..held.all.div_ceil(PER_BLOCK)]);
    let used = first + lay_again(records, SAB2, &header, first, &mut out[first..]);
    Ok(clear_behind(out, used))
}

/// Makes an SAB1 file of an SAB2 file, if nothing is folded. The list is lost.
/// Answers its count of blocks.
pub fn to_sab1(file: &[u8], out: &mut [u8]) -> Answer<u16> {
    let out = lent_blocks(out, FILE)?;
    let mut made = [0; BASE];
    let (parts, base, held) = checked(file, &mut made)?;
    if base.vector != Vector::ZERO {
        return refuse(29);
    }
    let used = match held.all {
        0 => lay_none(&parts.header, &mut out[0]),
        _ => lay_again(parts.records, SAB1, &parts.header, 0, out),
    };
    Ok(clear_behind(out, used))
}
