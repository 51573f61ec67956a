//! The records held so far: how many, where each stands, and what a next record
//! must be.

use crate::RECORDS;
use crate::record::{Fields, Record};
use crate::vector::Vector;

/// Where records are kept, by place.
pub trait Store {
    fn record(&self, place: usize) -> &Record;
}

/// A log's records.
impl Store for &[Record] {
    #[inline(always)]
    fn record(&self, place: usize) -> &Record {
        &self[place]
    }
}

/// How many records are held.
#[derive(Clone, Copy)]
pub struct Counts {
    /// Those that are not folded.
    pub all: usize,
    /// Of each unit, folded ones with them.
    pub vector: Vector,
    /// One above the rank of the last record; a next in order has no lower one.
    next_rank: u32,
}

impl Counts {
    /// No records behind a base vector.
    pub const fn on(base: Vector) -> Counts {
        Counts {
            all: 0,
            vector: base,
            next_rank: 0,
        }
    }

    /// The record's number is held, or folded.
    #[inline(always)]
    pub fn hold(&self, fields: &Fields) -> bool {
        fields.number <= self.vector.count(fields.unit)
    }

    /// The record's number is its unit's next and its seen within the counts.
    #[inline(always)]
    pub fn are_before(&self, fields: &Fields) -> bool {
        fields.seen.within(self.vector)
            & (u32::from(self.vector.count(fields.unit)) + 1 == u32::from(fields.number))
    }

    /// The record ranks after the last one.
    #[inline(always)]
    pub fn rank_before(&self, fields: &Fields) -> bool {
        self.next_rank <= fields.rank()
    }

    /// One more record, which the counts are before.
    #[inline(always)]
    pub fn add(&mut self, fields: &Fields) {
        self.all += 1;
        self.vector = self.vector.and_one_of(fields.unit);
        self.next_rank = fields.rank() + 1;
    }
}

/// Where the held records stand that are not folded.
pub struct Places {
    /// How many records of each unit are folded.
    base: Vector,
    /// The place of each unit's records, by number less those folded and 1.
    of: [[u16; RECORDS]; 8],
    /// The seen of each unit's last record with that record counted.
    heard: [Vector; 8],
    /// The seen of the record at each place.
    seen: [Vector; RECORDS],
}

impl Places {
    /// No records, and none folded.
    #[inline(always)]
    pub fn none() -> Places {
        Places {
            base: Vector::ZERO,
            of: [[0; RECORDS]; 8],
            heard: [Vector::ZERO; 8],
            seen: [Vector::ZERO; RECORDS],
        }
    }

    /// So many of each unit are folded.
    #[inline(always)]
    pub fn begin_on(&mut self, base: Vector) {
        self.base = base;
    }

    /// The record of an identity, given as it is named, is folded.
    #[inline(always)]
    pub fn is_folded(&self, identity: u32) -> bool {
        identity >> 16 <= u32::from(self.base.count(identity as usize & 7))
    }

    /// Where the place of a unit's record stands that is not folded.
    #[inline(always)]
    fn row(&self, unit: usize, number: usize) -> usize {
        number.wrapping_sub(usize::from(self.base.count(unit)) + 1) % RECORDS
    }

    /// The place of a unit's held record that is not folded.
    #[inline(always)]
    pub fn place(&self, unit: usize, number: usize) -> usize {
        self.of[unit & 7][self.row(unit & 7, number)] as usize
    }

    /// The place of a held record that is not folded, given as it is named.
    #[inline(always)]
    pub fn named(&self, identity: u32) -> usize {
        self.place(identity as usize & 7, identity as usize >> 16)
    }

    /// What a unit has told that it has heard, by its last record; of a unit
    /// without one that is not folded, the base vector.
    pub fn heard(&self, unit: usize) -> Vector {
        match self.heard[unit] {
            Vector::ZERO => self.base,
            heard => heard,
        }
    }

    /// The seen of a next record is closed. What its unit had heard is closed
    /// already, so only the counts that moved since then are looked at, and of
    /// these the ones that go beyond the base.
    #[inline(always)]
    pub fn are_closed(&self, fields: &Fields) -> bool {
        let seen = fields.seen;
        let heard = self.heard[fields.unit & 7];
        if seen == heard {
            return true;
        }
        if !heard.within(seen) {
            return false;
        }
        let mut moved = seen.differences(heard);
        while moved != 0 {
            let bit = moved.trailing_zeros() as usize;
            let unit = bit / 16 + 4 * (bit & 1);
            let count = seen.count(unit);
            let place = self.place(unit, count as usize) % RECORDS;
            if count > self.base.count(unit) && !self.seen[place].within(seen) {
                return false;
            }
            moved &= moved - 1;
        }
        true
    }

    /// One more record, kept at a place.
    #[inline(always)]
    pub fn add(&mut self, fields: &Fields, place: usize) {
        let unit = fields.unit & 7;
        let row = self.row(unit, fields.number as usize);
        self.of[unit][row] = place as u16;
        self.heard[unit] = fields.seen.and_one_of(unit);
        self.seen[place % RECORDS] = fields.seen;
    }
}
