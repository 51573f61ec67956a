//! The shared record folder in plain Rust: the rules of the customer's papers
//! written for speed and apart from the proved library, to compare it with.
//!
//! A state is a log and a base. Every call works in lent memory, uses no heap and
//! leaves all bytes as they were when it refuses. A refusal is the paper's number
//! with the place of the block at fault; the place is 0 where the paper returns
//! none. Work memory is not lent: what a call needs lies on its stack.

#![no_std]
#![forbid(unsafe_code)]

mod base;
mod block;
mod bytes;
mod calls;
mod file;
mod fold;
mod folded;
mod held;
mod index;
mod listing;
mod merge;
mod order;
mod plan;
mod record;
mod replay;
mod rows;
mod sab2;
mod table;
mod taken;
mod vector;

pub use base::EMPTY_BASE;
pub use block::sums;
pub use calls::{act, hand_out, show, sound, start, take, vector};
pub use file::{Head, read_file, write_file};
pub use fold::fold;
pub use index::{INDEX, Range, find, index, list};
pub use listing::{LISTING, listing};
pub use merge::{MergeRefusal, merge};
pub use order::check_order;
pub use plan::{LOGS, PLAN_BLOCKS, PLAN_TEXT, PlanRefusal, try_plan};
pub use record::{is_date, well_formed};
pub use rows::{REPORT, RowTaken, hand_out_row, take_row, try_row};
pub use sab2::{SAB2_BLOCKS, SAB2_FILE, to_sab1, to_sab2, write_sab2};
pub use vector::{Compared, compare};

/// Bytes of a record.
pub const RECORD: usize = 80;
/// Records that a log holds.
pub const RECORDS: usize = 512;
/// Bytes of the lent log.
pub const LOG: usize = RECORDS * RECORD;
/// Bytes of a block.
pub const BLOCK: usize = 512;
/// Records that a block holds.
pub const PER_BLOCK: usize = 6;
/// Blocks of the longest SAB1 file.
pub const BLOCKS: usize = 86;
/// Bytes lent for writing an SAB1 file.
pub const FILE: usize = BLOCKS * BLOCK;
/// Rows of entries, and of asides, that a base holds.
pub const BASE_ROWS: usize = 512;
/// Bytes of the lent list and base.
pub const BASE: usize = 24 + BASE_ROWS * (ENTRY_ROW + ASIDE_ROW);
/// Rows of entries, and of asides, that a tree table holds.
pub const ROWS: usize = BASE_ROWS + RECORDS;
/// Bytes of the tree table: two counts, rows of entries, rows of asides.
pub const TREE: usize = 4 + ROWS * (ENTRY_ROW + ASIDE_ROW);
/// Bytes of an entry row.
pub const ENTRY_ROW: usize = 72;
/// Bytes of an aside row.
pub const ASIDE_ROW: usize = 12;

/// A call's no: the number of the refusal table and the block's place.
#[derive(Clone, Copy, Debug, PartialEq, Eq)]
pub struct Refusal {
    pub number: u8,
    pub place: u8,
}

/// What a call answers.
pub type Answer<T> = Result<T, Refusal>;

/// A refusal at a block's place.
#[cold]
const fn refuse_at<T>(number: u8, place: usize) -> Answer<T> {
    Err(Refusal {
        number,
        place: place as u8,
    })
}

/// A refusal without a place, or at place 0.
#[cold]
const fn refuse<T>(number: u8) -> Answer<T> {
    refuse_at(number, 0)
}
