//! The 80-byte record: its fields and when it is well formed.

use crate::RECORD;
use crate::bytes::{get16, get32, get64};
use crate::vector::Vector;

pub type Record = [u8; RECORD];

pub const MAKE_FOLDER: u8 = 1;
pub const MAKE_TRACE: u8 = 2;
pub const STORE: u8 = 3;
pub const REMOVE: u8 = 4;
pub const RENAME: u8 = 5;
const SETTLE: u8 = 6;
pub const MOVE: u8 = 7;

/// What an operation asks of a record's bytes.
#[derive(Clone, Copy)]
struct Rule {
    /// Bits of the eight bytes of object and folder that are zero.
    names_zero: u64,
    /// Bits of the mark that are zero.
    mark_zero: u64,
    /// Where the identity that it is about stands in those eight bytes.
    named_at: u8,
    uses_object: bool,
    uses_label: bool,
}

const RULES: [Rule; 8] = {
    // A unit of three bits, a zero, a number.
    const IDENTITY: u64 = 0xffff_0007;
    const fn rule(named_at: u8, uses_label: bool, uses_mark: bool) -> Rule {
        Rule {
            names_zero: !(IDENTITY << named_at),
            mark_zero: if uses_mark { 0 } else { !0 },
            named_at,
            uses_object: named_at == 0,
            uses_label,
        }
    }
    // No operation: no identity is good.
    let mut rules = [Rule {
        names_zero: !0,
        ..rule(0, false, false)
    }; 8];
    rules[MAKE_FOLDER as usize] = rule(32, true, false);
    rules[MAKE_TRACE as usize] = rule(32, true, true);
    rules[STORE as usize] = rule(0, false, true);
    rules[REMOVE as usize] = rule(0, false, false);
    rules[RENAME as usize] = rule(0, true, false);
    rules[SETTLE as usize] = rule(0, false, false);
    rules[MOVE as usize] = Rule {
        names_zero: !(IDENTITY | IDENTITY << 32),
        ..rule(0, true, false)
    };
    rules
};

/// The rule of an operation below 8.
#[inline(always)]
fn rule(operation: u8) -> &'static Rule {
    &RULES[(operation & 7) as usize]
}

/// What of a label counts: its 32 bytes, A to Z as a to z.
pub type LabelKey = [u64; 4];

/// The fields of a well-formed record that later steps use.
#[derive(Clone, Copy)]
pub struct Fields<'a> {
    pub record: &'a Record,
    pub unit: usize,
    pub operation: u8,
    pub number: u16,
    pub seen: Vector,
    /// The identity it is about, as it stands in the record: the folder of a
    /// make, else the object.
    pub named: u32,
    /// The folder of a make or a move.
    pub folder: u32,
}

impl Fields<'_> {
    #[inline(always)]
    pub fn of(record: &Record) -> Fields<'_> {
        let head = get32(record, 0);
        let operation = (head >> 8) as u8;
        let names = get64(record, 20);
        Fields {
            record,
            unit: (head & 7) as usize,
            operation,
            number: (head >> 16) as u16,
            seen: Vector::read(record, 4),
            named: (names >> rule(operation).named_at) as u32,
            folder: (names >> 32) as u32,
        }
    }

    /// The record's identity in the form of a named one.
    #[inline(always)]
    pub fn identity(&self) -> u32 {
        self.unit as u32 | (self.number as u32) << 16
    }

    /// Sum of the seen counts, then the unit.
    #[inline(always)]
    pub fn rank(&self) -> u32 {
        self.seen.total() << 3 | self.unit as u32
    }
}

/// The rank of a held record.
#[inline(always)]
pub fn rank_of(record: &Record) -> u32 {
    Vector::read(record, 4).total() << 3 | (record[0] & 7) as u32
}

/// A label with the zeros behind it.
pub type Label = [u8; 32];

/// The label of a record.
#[inline(always)]
pub fn label_in(record: &Record) -> &Label {
    let (parts, _) = record[32..].as_chunks();
    &parts[0]
}

/// What of a label counts.
#[inline(always)]
pub fn label_key(label: &Label) -> LabelKey {
    [
        lower(get64(label, 0)),
        lower(get64(label, 8)),
        lower(get64(label, 16)),
        lower(get64(label, 24)),
    ]
}

/// Eight bytes, A to Z as a to z.
#[inline(always)]
pub fn lower(bytes: u64) -> u64 {
    const EACH: u64 = 0x0101_0101_0101_0101;
    const TOP: u64 = EACH * 0x80;
    // The upper bit of a byte, where it is at least A, and above Z.
    let from_a = (bytes & !TOP) + EACH * (0x80 - b'A' as u64);
    let above_z = (bytes & !TOP) + EACH * (0x7f - b'Z' as u64);
    bytes | (from_a & !above_z & !bytes & TOP) >> 2
}

/// A real Gregorian date from 1990 to 2199.
#[inline(always)]
pub fn is_date(year: u16, month: u8, day: u8) -> bool {
    // Days of the months 0 to 15 in common years, then in leap years.
    const DAYS: [u8; 32] = [
        0, 31, 28, 31, 30, 31, 30, 31, 31, 30, 31, 30, 31, 0, 0, 0, //
        0, 31, 29, 31, 30, 31, 30, 31, 31, 30, 31, 30, 31, 0, 0, 0,
    ];
    // Of these years only 2100 divides by 4 and is no leap year.
    let leap = (year & 3 == 0) & (year != 2100);
    let days = DAYS[(month & 15 | (leap as u8) << 4) as usize];
    (year.wrapping_sub(1990) < 210) & (month < 16) & (day.wrapping_sub(1) < days)
}

/// The label behind its day is empty, or bytes 20 to 7E without a space first or
/// last; all bytes after it are zero. The day is that of a date: neither zero nor
/// a space.
#[inline(always)]
pub fn is_label_or_empty(dated: &[u8; 33]) -> bool {
    // Without comparisons the loop becomes vector instructions.
    let mut wrong = 0;
    for i in 1..33 {
        let (byte, before) = (dated[i], dated[i - 1]);
        let unprinted = byte.saturating_sub(0x7e) | byte.min(0x20u8.saturating_sub(byte));
        let after_end = byte.min(1u8.saturating_sub(before));
        let last_space = 1u8.saturating_sub(byte) & 1u8.saturating_sub(before ^ 0x20);
        wrong |= unprinted | after_end | last_space;
    }
    wrong == 0 && dated[1] != 0x20 && dated[32] != 0x20
}

/// The record's number is one above what it has seen of its unit.
#[inline(always)]
fn number_fits(record: &Record) -> bool {
    let head = get32(record, 0);
    let own_seen = get16(record, 4 + 2 * (head & 7) as usize) as u32;
    own_seen + 1 == head >> 16
}

/// All of a record but its number is well formed.
#[inline(always)]
pub fn body_fits(record: &Record) -> bool {
    let head = get32(record, 0);
    let rule = rule((head >> 8) as u8);
    let names = get64(record, 20);
    let mark = get64(record, 64) | get64(record, 72);
    let stray = (head & 0xf8f8) as u64 | names & rule.names_zero | mark & rule.mark_zero;

    let is_held = |identity: u32| {
        let seen = get16(record, 4 + 2 * (identity & 7) as usize) as u32;
        (identity >> 16).wrapping_sub(1) < seen
    };
    let (object, folder) = (names as u32, (names >> 32) as u32);
    let named = !rule.uses_object | is_held(object);
    let placed = (folder == 0) | is_held(folder);

    let date = get32(record, 28);
    let has_label = record[32] != 0;

    stray == 0
        && named & placed
        && has_label == rule.uses_label
        && is_date(date as u16, (date >> 16) as u8, (date >> 24) as u8)
        && is_label_or_empty(&record[31..].as_chunks().0[0])
}

/// The record is well formed.
#[inline(always)]
pub fn well_formed(record: &Record) -> bool {
    number_fits(record) && body_fits(record)
}
