//! Blocks: header, six record places, two sums.

use crate::bytes::{all_zero, get16, get32, put16, put32};
use crate::record::Record;
use crate::vector::Vector;
use crate::{BLOCK, PER_BLOCK, RECORD};

pub type Block = [u8; BLOCK];

/// What a block begins with.
pub type Letters = [u8; 4];

pub const SAB1: Letters = *b"SAB1";
pub const SAB2: Letters = *b"SAB2";

const FIRST_RECORD: usize = 28;
const SUMS: usize = 508;
const MODULUS: u32 = 65_521;
const LANES: usize = 8;

/// The header fields of a block.
#[derive(Clone, Copy, PartialEq, Eq)]
pub struct Header {
    pub archive: u32,
    pub unit: u8,
    pub vector: Vector,
}

/// The two sums over the 254 words before them. The totals fit 32 bits, so the
/// remainders are taken once.
#[inline]
pub fn sums(block: &Block) -> (u16, u16) {
    let (words, _) = block.as_chunks::<2>();
    let (rows, rest) = words[..SUMS / 2].as_chunks::<LANES>();
    // Lane j keeps both sums of the words at 8k + j.
    let mut firsts = [0u32; LANES];
    let mut seconds = [0u32; LANES];
    for row in rows {
        for lane in 0..LANES {
            firsts[lane] += u16::from_le_bytes(row[lane]) as u32;
            seconds[lane] += firsts[lane];
        }
    }
    // A lane's second sum counts a word once a row; it stands in eight places a
    // row, but in lane j for the first row only in 8 - j.
    let mut first: u32 = firsts.iter().sum();
    let mut second: u32 = (0..LANES)
        .map(|lane| LANES as u32 * seconds[lane] - lane as u32 * firsts[lane])
        .sum();
    for word in rest {
        first += u16::from_le_bytes(*word) as u32;
        second += first;
    }
    ((first % MODULUS) as u16, (second % MODULUS) as u16)
}

/// The place of a record in its block.
#[inline(always)]
fn record_at(i: usize) -> usize {
    FIRST_RECORD + RECORD * i
}

/// A record of a block.
#[inline(always)]
pub fn record(block: &Block, i: usize) -> &Record {
    let (records, _) = block[FIRST_RECORD..SUMS].as_chunks();
    &records[i]
}

/// The bytes of a block's records.
#[inline(always)]
pub fn records(block: &Block) -> &[u8] {
    &block[FIRST_RECORD..record_at(count(block))]
}

#[inline(always)]
pub fn count(block: &Block) -> usize {
    block[9] as usize
}

#[inline(always)]
pub fn place(block: &Block) -> usize {
    get16(block, 10) as usize
}

#[inline(always)]
pub fn header(block: &Block) -> Header {
    Header {
        archive: get32(block, 4),
        unit: block[8],
        vector: Vector::read(block, 12),
    }
}

/// The first of 3, 4 and 5 that holds, or 0.
#[inline]
pub fn fault(block: &Block, letters: Letters) -> u8 {
    if block[..4] != letters {
        return 3;
    }
    let (first, second) = sums(block);
    if get16(block, SUMS) != first || get16(block, SUMS + 2) != second {
        return 4;
    }
    let count = count(block);
    if block[8] > 7 || count > PER_BLOCK || !all_zero(&block[record_at(count)..SUMS]) {
        return 5;
    }
    0
}

/// Writes a block's header, whose records stand, and its sums.
#[inline]
pub fn finish(block: &mut Block, letters: Letters, header: &Header, count: usize, place: usize) {
    block[..4].copy_from_slice(&letters);
    put32(block, 4, header.archive);
    block[8] = header.unit;
    block[9] = count as u8;
    put16(block, 10, place as u16);
    header.vector.write(block, 12);
    if count < PER_BLOCK {
        block[record_at(count)..SUMS].fill(0);
    }
    let (first, second) = sums(block);
    put16(block, SUMS, first);
    put16(block, SUMS + 2, second);
}

/// A place of a block, to write.
#[inline(always)]
pub fn record_mut(block: &mut Block, i: usize) -> &mut Record {
    let (records, _) = block[FIRST_RECORD..SUMS].as_chunks_mut();
    &mut records[i]
}

/// Lays a record into its place in a block.
#[inline(always)]
pub fn put_record(block: &mut Block, i: usize, record: &Record) {
    block[record_at(i)..record_at(i + 1)].copy_from_slice(record);
}

/// Lays six or fewer records into a block.
#[inline(always)]
pub fn put_records(block: &mut Block, records: &[Record]) {
    block[FIRST_RECORD..record_at(records.len())].copy_from_slice(records.as_flattened());
}
