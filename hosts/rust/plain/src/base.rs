//! The lent base: the list of units, and what the folded records left.
//!
//! 0 the list, bit u for unit u; 1 zero; 2-3 how many entries; 4-5 how many
//! asides; 6-7 zero; 8-23 the base vector; from 24 on 512 rows of entries; from
//! 36,888 on 512 rows of asides. Rows not used are zero.

use crate::bytes::{all_zero, get16, get32, put16};
use crate::record::{Label, is_date, is_label_or_empty};
use crate::replay::Room;
use crate::vector::Vector;
use crate::{ASIDE_ROW, Answer, BASE, BASE_ROWS, ENTRY_ROW, refuse};

pub type EntryRow = [u8; ENTRY_ROW];
pub type AsideRow = [u8; ASIDE_ROW];

const ENTRIES: usize = 24;
const ASIDES: usize = ENTRIES + BASE_ROWS * ENTRY_ROW;

/// A base that keeps to its layout.
#[derive(Clone, Copy)]
pub struct Base<'a> {
    pub list: u8,
    /// How many records of each unit are folded.
    pub vector: Vector,
    pub entries: &'a [EntryRow],
    pub asides: &'a [AsideRow],
}

/// All eight units are listed and nothing is folded.
pub const EMPTY: Base = Base {
    list: 255,
    vector: Vector::ZERO,
    entries: &[],
    asides: &[],
};

/// The bytes of a base after a start.
pub static EMPTY_BASE: [u8; BASE] = {
    let mut bytes = [0; BASE];
    bytes[0] = EMPTY.list;
    bytes
};

/// The lent base, if it has its length.
pub fn lent(base: &[u8]) -> Answer<&[u8; BASE]> {
    base.try_into().or(refuse(1))
}

/// The same, to be written.
pub fn lent_mut(base: &mut [u8]) -> Answer<&mut [u8; BASE]> {
    base.try_into().or(refuse(1))
}

/// A lent base has no rows.
pub fn is_bare(base: &[u8; BASE]) -> bool {
    get32(base, 2) == 0
}

/// A list has each unit that a vector counts records of.
pub fn lists_all(list: u8, vector: Vector) -> bool {
    (0..8).all(|unit| vector.count(unit) == 0 || list >> unit & 1 == 1)
}

impl<'a> Base<'a> {
    /// The base in lent bytes, if each row keeps to its layout and names nothing
    /// above the vector, and what is not used is zero.
    pub fn of(bytes: &'a [u8; BASE]) -> Option<Base<'a>> {
        let (entries, asides) = (usize::from(get16(bytes, 2)), usize::from(get16(bytes, 4)));
        let zeros = bytes[1] == 0 && get16(bytes, 6) == 0;
        if !zeros || entries > BASE_ROWS || asides > BASE_ROWS {
            return None;
        }
        let (entries, no_entries) = bytes[ENTRIES..ASIDES].split_at(entries * ENTRY_ROW);
        let (asides, no_asides) = bytes[ASIDES..].split_at(asides * ASIDE_ROW);
        let base = Base {
            list: bytes[0],
            vector: Vector::read(bytes, 8),
            entries: entries.as_chunks().0,
            asides: asides.as_chunks().0,
        };
        let fits = base.entries.iter().all(|row| entry_fits(row, base.vector))
            && base.asides.iter().all(|row| aside_fits(row, base.vector))
            && all_zero(no_entries)
            && all_zero(no_asides);
        fits.then_some(base)
    }

    /// No identity stands twice, no label twice in a folder, and each entry
    /// reaches the root.
    pub fn tree_fits(&self) -> bool {
        self.is_bare() || Room::of(0, false).replay().enter(self)
    }

    /// The same with its rows in a copy of its bytes.
    pub fn in_copy<'b>(&self, bytes: &'b [u8; BASE]) -> Base<'b> {
        Base {
            list: self.list,
            vector: self.vector,
            entries: &bytes[ENTRIES..].as_chunks().0[..self.entries.len()],
            asides: &bytes[ASIDES..].as_chunks().0[..self.asides.len()],
        }
    }

    /// It has no rows.
    pub fn is_bare(&self) -> bool {
        self.entries.is_empty() && self.asides.is_empty()
    }

    pub fn lists(&self, unit: usize) -> bool {
        self.list >> unit & 1 == 1
    }

    pub fn label(&self, row: usize) -> &'a Label {
        let (parts, _) = self.entries[row][24..].as_chunks();
        &parts[0]
    }

    /// Writes the bytes before the rows; the zeros among them stand.
    pub fn put_head(&self, bytes: &mut [u8]) {
        bytes[0] = self.list;
        put16(bytes, 2, self.entries.len() as u16);
        put16(bytes, 4, self.asides.len() as u16);
        self.vector.write(bytes, 8);
    }
}

/// An identity, unit, zero and number, that is within a vector.
fn is_within(identity: u32, vector: Vector) -> bool {
    identity & 0xfff8 == 0
        && (identity >> 16).wrapping_sub(1) < u32::from(vector.count(identity as usize & 7))
}

/// A row of an entry keeps to its layout.
fn entry_fits(row: &EntryRow, vector: Vector) -> bool {
    let named = |at: usize| is_within(get32(row, at), vector);
    let kind = get32(row, 0);
    let placed = get32(row, 8) == 0 || named(8);
    (kind == 1 || kind == 2)
        && named(4)
        && placed
        && named(12)
        && named(16)
        && is_date(get16(row, 20), row[22], row[23])
        && row[24] != 0
        && is_label_or_empty(&row[23..].as_chunks().0[0])
        && (kind == 2 || all_zero(&row[56..]))
}

/// A row of an aside keeps to its layout.
fn aside_fits(row: &AsideRow, vector: Vector) -> bool {
    let marks = get32(row, 8);
    is_within(get32(row, 0), vector)
        && matches!(row[4], 12..=18 | 25)
        && matches!(row[5], 1 | 2)
        && get16(row, 6) == 0
        && (marks == 0 || is_within(marks, vector))
}

/// The bytes of a base, to be written: those before the rows, rows of entries, rows of
/// asides.
pub fn parts_mut(base: &mut [u8; BASE]) -> (&mut [u8], &mut [EntryRow], &mut [AsideRow]) {
    let (head, rows) = base.split_at_mut(ENTRIES);
    let (entries, asides) = rows.split_at_mut(ASIDES - ENTRIES);
    (head, entries.as_chunks_mut().0, asides.as_chunks_mut().0)
}

/// Makes a lent base empty, with all eight units listed.
pub fn empty(base: &mut [u8]) {
    base.fill(0);
    base[0] = EMPTY.list;
}
