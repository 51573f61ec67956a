//! The library's calls over slices, one function for each.
//!
//! A refused call leaves all lent bytes as they were, but for work memory. A slice
//! of any length may be lent; one of another length than stated is refused with 1
//! or 2. A unit is any number here, and one above 7 is refused with 21. A base is
//! lent beside each log. To the calls that change a tree its index is lent, or no
//! bytes if none is kept; [`index`] makes one. A take is lent [`WORK`] bytes of work
//! memory with an index, and none without. The types beside this module do the same
//! with less to get wrong.

#![allow(unsafe_code)]

use crate::{Answer, MergeRefusal, PlanRefusal, Refusal, ffi};

/// Bytes of the lent log.
pub const LOG: usize = 40_960;
/// Bytes of the lent list and base.
pub const BASE: usize = 43_032;
/// Bytes of a wish.
pub const WISH: usize = 80;
/// Bytes of a block.
pub const BLOCK: usize = 512;
/// Bytes lent for writing an SAB1 file.
pub const FILE: usize = 44_032;
/// Bytes lent for writing an SAB2 file.
pub const SAB2: usize = 95_232;
/// Bytes of the tree table.
pub const TREE: usize = 86_020;
/// Bytes of work memory.
pub const WORK: usize = 86_020;
/// Bytes of an index.
pub const INDEX: usize = 40_964;
/// Bytes of the report of a row that is tried.
pub const REPORT: usize = 4_116;
/// Bytes lent for a listing; none is longer.
pub const LISTING: usize = 172_544;

/// Bytes of the eight logs of a plan.
pub const ROUND: usize = 8 * LOG;
/// Bytes lent for what is printed of a plan; it is never longer.
pub const PLAN_TEXT: usize = 1_024;

/// Bytes of a vector.
pub const VECTOR: usize = 16;

const HEAD: usize = 24;
const LACKS: usize = 8;

/// What a file says of itself.
#[derive(Clone, Copy, Debug, PartialEq, Eq)]
pub struct Head {
    /// Its archive.
    pub archive: u32,
    /// The unit that wrote it.
    pub unit: u8,
    /// How many records it has, folded ones not counted.
    pub records: u16,
    /// How many of each unit, folded ones counted.
    pub vector: [u16; 8],
}

/// The count that a result carries, or its refusal.
fn answer(result: u32) -> Answer<u16> {
    match result.to_le_bytes() {
        [0, _, low, high] => Ok(u16::from_le_bytes([low, high])),
        [number, place, ..] => Err(Refusal { number, place }),
    }
}

pub(crate) fn vector_bytes(vector: &[u16; 8]) -> [u8; VECTOR] {
    std::array::from_fn(|i| vector[i / 2].to_le_bytes()[i % 2])
}

pub(crate) fn vector_of(bytes: &[u8; VECTOR]) -> [u16; 8] {
    std::array::from_fn(|unit| u16::from_le_bytes([bytes[2 * unit], bytes[2 * unit + 1]]))
}

/// Empties a log, its base and its index. Refuses 1, 21.
pub fn start(
    log: &mut [u8],
    base: &mut [u8],
    index: &mut [u8],
    archive: u32,
    unit: u32,
) -> Answer<()> {
    let result = unsafe {
        ffi::sab_start(
            log.as_mut_ptr(),
            log.len(),
            base.as_mut_ptr(),
            base.len(),
            index.as_mut_ptr(),
            index.len(),
            archive,
            unit,
        )
    };
    answer(result).map(drop)
}

/// Makes the wished record, if it fits. Refuses 1, 21, 19, 26, 7, 24, 28, 11,
/// 12 to 16, 18, 25.
pub fn act(
    log: &mut [u8],
    base: &[u8],
    index: &mut [u8],
    archive: u32,
    unit: u32,
    wish: &[u8],
    work: &mut [u8],
) -> Answer<()> {
    let result = unsafe {
        ffi::sab_act(
            log.as_mut_ptr(),
            log.len(),
            base.as_ptr(),
            base.len(),
            index.as_mut_ptr(),
            index.len(),
            archive,
            unit,
            wish.as_ptr(),
            wish.len(),
            work.as_mut_ptr(),
            work.len(),
        )
    };
    answer(result).map(drop)
}

/// Writes a block of the first six or fewer records that the asked vector
/// lacks. Refuses 1, 21, 19, 27.
pub fn hand_out(
    log: &[u8],
    base: &[u8],
    archive: u32,
    unit: u32,
    asked: &[u16; 8],
    block: &mut [u8],
) -> Answer<()> {
    let asked = vector_bytes(asked);
    let result = unsafe {
        ffi::sab_hand_out(
            log.as_ptr(),
            log.len(),
            base.as_ptr(),
            base.len(),
            archive,
            unit,
            asked.as_ptr(),
            asked.len(),
            block.as_mut_ptr(),
            block.len(),
        )
    };
    answer(result).map(drop)
}

/// Takes a block wholly or not at all. Refuses 1, 21, 19, 2 to 11, 26,
/// 27.
pub fn take(
    log: &mut [u8],
    base: &[u8],
    index: &mut [u8],
    archive: u32,
    unit: u32,
    block: &[u8],
    work: &mut [u8],
) -> Answer<()> {
    let result = unsafe {
        ffi::sab_take(
            log.as_mut_ptr(),
            log.len(),
            base.as_ptr(),
            base.len(),
            index.as_mut_ptr(),
            index.len(),
            archive,
            unit,
            block.as_ptr(),
            block.len(),
            work.as_mut_ptr(),
            work.len(),
        )
    };
    answer(result).map(drop)
}

/// Writes all blocks of what the asked vector lacks, each as [`hand_out`] would
/// give it once those before are taken, and zeros behind them; answers how many
/// they are. Refuses 1, 21, 19, 27.
pub fn hand_out_row(
    log: &[u8],
    base: &[u8],
    archive: u32,
    unit: u32,
    asked: &[u16; 8],
    row: &mut [u8],
) -> Answer<u16> {
    let asked = vector_bytes(asked);
    let result = unsafe {
        ffi::sab_hand_out_row(
            log.as_ptr(),
            log.len(),
            base.as_ptr(),
            base.len(),
            archive,
            unit,
            asked.as_ptr(),
            asked.len(),
            row.as_mut_ptr(),
            row.len(),
        )
    };
    answer(result)
}

/// How far a row was taken.
#[derive(Clone, Copy, Debug, PartialEq, Eq)]
pub struct RowTaken {
    /// How many blocks.
    pub taken: u8,
    /// The number that stopped the row, or 0.
    pub stopped: u8,
}

/// Takes the blocks of a row in turn, up to the first that [`take`] refuses.
/// Refuses 1, 21, 2, 19.
pub fn take_row(
    log: &mut [u8],
    base: &[u8],
    index: &mut [u8],
    archive: u32,
    unit: u32,
    row: &[u8],
    work: &mut [u8],
) -> Answer<RowTaken> {
    let result = unsafe {
        ffi::sab_take_row(
            log.as_mut_ptr(),
            log.len(),
            base.as_ptr(),
            base.len(),
            index.as_mut_ptr(),
            index.len(),
            archive,
            unit,
            row.as_ptr(),
            row.len(),
            work.as_mut_ptr(),
            work.len(),
        )
    };
    let [taken, stopped] = answer(result)?.to_le_bytes();
    Ok(RowTaken { taken, stopped })
}

/// Tries a row on a copy of the log: leaves in `copy` the log as it would be, in
/// `tree` its tree, in `report` what `include/sab.h` says. Refuses 1, 21, 2, 19.
pub fn try_row(
    log: &[u8],
    base: &[u8],
    archive: u32,
    unit: u32,
    row: &[u8],
    copy: &mut [u8],
    tree: &mut [u8],
    report: &mut [u8],
) -> Answer<()> {
    let result = unsafe {
        ffi::sab_try(
            log.as_ptr(),
            log.len(),
            base.as_ptr(),
            base.len(),
            archive,
            unit,
            row.as_ptr(),
            row.len(),
            copy.as_mut_ptr(),
            copy.len(),
            tree.as_mut_ptr(),
            tree.len(),
            report.as_mut_ptr(),
            report.len(),
        )
    };
    answer(result).map(drop)
}

/// Lists the units of the archive, bit u for unit u, and folds the longest run of
/// records that all of them have heard of; answers how many were folded. Refuses 1,
/// 21, 19, 26.
pub fn fold(
    log: &mut [u8],
    base: &mut [u8],
    archive: u32,
    unit: u32,
    list: u32,
    work: &mut [u8],
) -> Answer<u16> {
    let result = unsafe {
        ffi::sab_fold(
            log.as_mut_ptr(),
            log.len(),
            base.as_mut_ptr(),
            base.len(),
            archive,
            unit,
            list,
            work.as_mut_ptr(),
            work.len(),
        )
    };
    answer(result)
}

/// Checks another maker's order, four bytes a name; answers the condition that
/// failed first, 1 to 3, or 0 where the order is accepted. If the first two hold, the
/// tables show our tree and that of the order; else they stay as they were. Refuses
/// 1, 19, 29.
pub fn check_order(
    log: &[u8],
    base: &[u8],
    list: &[u8],
    ours: &mut [u8],
    theirs: &mut [u8],
) -> Answer<u16> {
    let result = unsafe {
        ffi::sab_check_order(
            log.as_ptr(),
            log.len(),
            base.as_ptr(),
            base.len(),
            list.as_ptr(),
            list.len(),
            ours.as_mut_ptr(),
            ours.len(),
            theirs.as_mut_ptr(),
            theirs.len(),
        )
    };
    answer(result)
}

/// Writes the whole log as an SAB1 file, if nothing is folded; answers its count of
/// blocks. Refuses 1, 21, 19, 29.
pub fn write_file(
    log: &[u8],
    base: &[u8],
    archive: u32,
    unit: u32,
    file: &mut [u8],
) -> Answer<u16> {
    let result = unsafe {
        ffi::sab_write_file(
            log.as_ptr(),
            log.len(),
            base.as_ptr(),
            base.len(),
            archive,
            unit,
            file.as_mut_ptr(),
            file.len(),
        )
    };
    answer(result)
}

/// Writes list, base and log as an SAB2 file; answers its count of blocks. Refuses
/// 1, 21, 19.
pub fn write_sab2(
    log: &[u8],
    base: &[u8],
    archive: u32,
    unit: u32,
    file: &mut [u8],
) -> Answer<u16> {
    let result = unsafe {
        ffi::sab_write_sab2(
            log.as_ptr(),
            log.len(),
            base.as_ptr(),
            base.len(),
            archive,
            unit,
            file.as_mut_ptr(),
            file.len(),
        )
    };
    answer(result)
}

/// Reads a file of either form into a lent log and base, whose old bytes are not
/// judged. SAB1 leaves an empty base with all eight units listed. Refuses 1, 2 to 5,
/// 7 to 9, 11, 20; of SAB2 also 26 and 31.
pub fn read_file(log: &mut [u8], base: &mut [u8], file: &[u8]) -> Answer<Head> {
    let mut head = [0; HEAD];
    let result = unsafe {
        ffi::sab_read_file(
            log.as_mut_ptr(),
            log.len(),
            base.as_mut_ptr(),
            base.len(),
            file.as_ptr(),
            file.len(),
            head.as_mut_ptr(),
            head.len(),
        )
    };
    answer(result)?;
    let mut vector = [0; VECTOR];
    vector.copy_from_slice(&head[8..]);
    Ok(Head {
        archive: u32::from_le_bytes([head[0], head[1], head[2], head[3]]),
        unit: head[4],
        records: u16::from_le_bytes([head[6], head[7]]),
        vector: vector_of(&vector),
    })
}

/// Makes an SAB2 file of an SAB1 file, with an empty base and all eight units
/// listed; answers its count of blocks. Refuses 1, for `out`; then what reading an
/// SAB1 file refuses.
pub fn to_sab2(file: &[u8], out: &mut [u8]) -> Answer<u16> {
    let result = unsafe {
        ffi::sab_to_sab2(file.as_ptr(), file.len(), out.as_mut_ptr(), out.len())
    };
    answer(result)
}

/// Makes an SAB1 file of an SAB2 file, whose list is lost; answers its count of
/// blocks. Refuses 1, for `out`; then what reading an SAB2 file refuses; then 29 if
/// records are folded.
pub fn to_sab1(file: &[u8], out: &mut [u8]) -> Answer<u16> {
    let result = unsafe {
        ffi::sab_to_sab1(file.as_ptr(), file.len(), out.as_mut_ptr(), out.len())
    };
    answer(result)
}

/// Makes one SAB1 file of all records of two, under the archive and unit of the
/// first; answers its count of blocks. The lent log, whose old bytes are not judged, then
/// holds the same records. Refuses 1, for `log` or `file`; then what reading the
/// first file refuses, then the second; then 6, 10, 11.
pub fn merge(
    first: &[u8],
    second: &[u8],
    log: &mut [u8],
    file: &mut [u8],
) -> Result<u16, MergeRefusal> {
    let result = unsafe {
        ffi::sab_merge(
            first.as_ptr(),
            first.len(),
            second.as_ptr(),
            second.len(),
            log.as_mut_ptr(),
            log.len(),
            file.as_mut_ptr(),
            file.len(),
        )
    };
    answer(result).map_err(|refusal| MergeRefusal {
        refusal,
        file: (result >> 16) as u8,
    })
}

/// Shows the tree of a log and its base: every byte of the lent table. Refuses 1,
/// 19.
pub fn show(log: &[u8], base: &[u8], tree: &mut [u8]) -> Answer<()> {
    let result = unsafe {
        ffi::sab_show(
            log.as_ptr(),
            log.len(),
            base.as_ptr(),
            base.len(),
            tree.as_mut_ptr(),
            tree.len(),
        )
    };
    answer(result).map(drop)
}

/// Makes the index of a log and its base afresh: every byte of the lent one.
/// Refuses 1, 19.
pub fn index(log: &[u8], base: &[u8], index: &mut [u8], work: &mut [u8]) -> Answer<()> {
    let result = unsafe {
        ffi::sab_index(
            log.as_ptr(),
            log.len(),
            base.as_ptr(),
            base.len(),
            index.as_mut_ptr(),
            index.len(),
            work.as_mut_ptr(),
            work.len(),
        )
    };
    answer(result).map(drop)
}

/// Looks up a label, 32 bytes, in the folder of a unit and a number, in an index of
/// any bytes: the entry's unit and number, if there is one. What is no identity has
/// no entries. Refuses 1.
pub fn find(index: &[u8], unit: u32, number: u32, label: &[u8]) -> Answer<Option<(u8, u16)>> {
    let result = unsafe {
        ffi::sab_find(
            index.as_ptr(),
            index.len(),
            unit,
            number,
            label.as_ptr(),
            label.len(),
        )
    };
    let number = answer(result)?;
    let entry = ((result >> 8) as u8, number);
    Ok((entry != (0, 0)).then_some(entry))
}

/// The rows of a folder in an index: row `i` stands at byte 4 + 40 i.
#[derive(Clone, Copy, Debug, PartialEq, Eq)]
pub struct Range {
    /// The first row.
    pub first: u16,
    /// How many they are.
    pub count: u16,
}

/// Lists the folder of a unit and a number in an index of any bytes. The rows lie
/// within the index. Refuses 1.
pub fn list(index: &[u8], unit: u32, number: u32) -> Answer<Range> {
    let mut range = [0; 4];
    let result = unsafe {
        ffi::sab_list(
            index.as_ptr(),
            index.len(),
            unit,
            number,
            range.as_mut_ptr(),
            range.len(),
        )
    };
    answer(result)?;
    let [a, b, c, d] = range;
    Ok(Range {
        first: u16::from_le_bytes([a, b]),
        count: u16::from_le_bytes([c, d]),
    })
}

/// The held vector: how many records of each unit, folded ones with them. Refuses
/// 1, 19.
pub fn vector(log: &[u8], base: &[u8]) -> Answer<[u16; 8]> {
    let mut vector = [0; VECTOR];
    let result = unsafe {
        ffi::sab_vector(
            log.as_ptr(),
            log.len(),
            base.as_ptr(),
            base.len(),
            vector.as_mut_ptr(),
            vector.len(),
        )
    };
    answer(result)?;
    Ok(vector_of(&vector))
}

/// What comparing two vectors answers.
#[derive(Clone, Copy, Debug, PartialEq, Eq)]
pub struct Compared {
    /// 0 identical, 1 the first dominates, 2 the second dominates, 3 both ahead.
    pub answer: u8,
    /// How many records the first lacks: the sum, over the units, of what the
    /// second has more.
    pub first_lacks: u32,
    /// How many records the second lacks.
    pub second_lacks: u32,
}

/// Compares two vectors, of any counts. It is never refused.
pub fn compare(first: &[u16; 8], second: &[u16; 8]) -> Compared {
    let (first, second) = (vector_bytes(first), vector_bytes(second));
    let mut lacks = [0; LACKS];
    let result = unsafe {
        ffi::sab_compare(
            first.as_ptr(),
            first.len(),
            second.as_ptr(),
            second.len(),
            lacks.as_mut_ptr(),
            lacks.len(),
        )
    };
    let [a, b, c, d, e, f, g, h] = lacks;
    Compared {
        answer: (result >> 16) as u8,
        first_lacks: u32::from_le_bytes([a, b, c, d]),
        second_lacks: u32::from_le_bytes([e, f, g, h]),
    }
}

/// What listing a file answers: the length of the text at the beginning of `out`,
/// and the refusal that the text tells of, if the file was refused.
#[derive(Clone, Copy, Debug, PartialEq, Eq)]
pub struct Listed {
    /// Bytes of the text.
    pub length: usize,
    /// The refusal that the text tells of.
    pub refused: Option<Refusal>,
}

/// Lists a file of either form as text; a refused file gives one line. `log`, `base`
/// and `tree` are work space, and hold what the file holds and its tree if it is
/// accepted; a refused file leaves `log` and `base`, and zeros in `tree`. Refuses 1,
/// for one of these or `out`.
pub fn listing(
    file: &[u8],
    log: &mut [u8],
    base: &mut [u8],
    tree: &mut [u8],
    out: &mut [u8],
) -> Answer<Listed> {
    let mut length = [0; 4];
    let result = unsafe {
        ffi::sab_listing(
            file.as_ptr(),
            file.len(),
            log.as_mut_ptr(),
            log.len(),
            base.as_mut_ptr(),
            base.len(),
            tree.as_mut_ptr(),
            tree.len(),
            out.as_mut_ptr(),
            out.len(),
            length.as_mut_ptr(),
            length.len(),
        )
    };
    let refused = answer(result).err();
    match refused {
        Some(Refusal { number: 1, .. }) => Err(Refusal {
            number: 1,
            place: 0,
        }),
        _ => Ok(Listed {
            length: u32::from_le_bytes(length) as usize,
            refused,
        }),
    }
}

/// What trying a plan answers: the length of the text at the beginning of `text`,
/// and the refusal that the text tells of, if the plan was refused.
#[derive(Clone, Copy, Debug, PartialEq, Eq)]
pub struct Planned {
    /// Bytes of the text.
    pub length: usize,
    /// The refusal that the text tells of.
    pub refused: Option<PlanRefusal>,
}

/// Tries a plan on eight logs laid end to end, whose old bytes are not judged; a
/// refused plan gives one line and leaves `logs`, `base` and `work`. An accepted one
/// leaves the logs as the units end, the base of a start, and zeros in `work`.
/// Refuses 1, for one of these or `text`.
pub fn try_plan(
    plan: &[u8],
    logs: &mut [u8],
    base: &mut [u8],
    work: &mut [u8],
    text: &mut [u8],
) -> Answer<Planned> {
    let mut length = [0; 4];
    let result = unsafe {
        ffi::sab_try_plan(
            plan.as_ptr(),
            plan.len(),
            logs.as_mut_ptr(),
            logs.len(),
            base.as_mut_ptr(),
            base.len(),
            work.as_mut_ptr(),
            work.len(),
            text.as_mut_ptr(),
            text.len(),
            length.as_mut_ptr(),
            length.len(),
        )
    };
    let [number, _, low, high] = result.to_le_bytes();
    if number == 1 {
        return Err(Refusal::new(1));
    }
    let refusal = PlanRefusal {
        number,
        place: u16::from_le_bytes([low, high]),
    };
    Ok(Planned {
        length: u32::from_le_bytes(length) as usize,
        refused: (number != 0).then_some(refusal),
    })
}
