//! Files of either form: all records of a log in blocks, in SAB2 behind those of
//! list and base.

use crate::base::{self, Base};
use crate::block::{self, Block, Header, Letters, SAB1};
use crate::calls::{open, records_of, unit_fits};
use crate::held::{Counts, Places, Store};
use crate::record::{Fields, Record, well_formed};
use crate::sab2;
use crate::vector::Vector;
use crate::{Answer, BASE, BLOCK, BLOCKS, FILE, LOG, PER_BLOCK, RECORDS, refuse, refuse_at};

/// What a file says of itself.
#[derive(Clone, Copy, Debug, PartialEq, Eq)]
pub struct Head {
    pub archive: u32,
    pub unit: u8,
    pub records: u16,
    pub vector: [u16; 8],
}

impl Head {
    fn of(header: &Header, held: &Counts) -> Head {
        Head {
            archive: header.archive,
            unit: header.unit,
            records: held.all as u16,
            vector: core::array::from_fn(|unit| header.vector.count(unit)),
        }
    }
}

/// Writes the whole log as a file, if nothing is folded; answers its count of
/// blocks.
pub fn write_file(log: &[u8], base: &[u8], archive: u32, unit: u8, file: &mut [u8]) -> Answer<u16> {
    let (records, base) = (records_of(log)?, base::lent(base)?);
    if file.len() != FILE {
        return refuse(1);
    }
    unit_fits(unit)?;
    let (base, held) = open(records, base, &mut Places::none())?;
    if base.vector != Vector::ZERO {
        return refuse(29);
    }
    let header = Header {
        archive,
        unit,
        vector: held.vector,
    };
    Ok(lay_file(&records[..held.all], &header, file))
}

/// Lays records in the blocks of a lent file, and zeros behind them; the count of
/// blocks.
pub fn lay_file(records: &[Record], header: &Header, file: &mut [u8]) -> u16 {
    let (blocks, _) = file.as_chunks_mut();
    let used = match records.len() {
        0 => lay_none(header, &mut blocks[0]),
        _ => lay_records(records, SAB1, header, 0, blocks),
    };
    blocks[used..].as_flattened_mut().fill(0);
    used as u16
}

/// The one block of a file without records.
pub fn lay_none(header: &Header, block: &mut Block) -> usize {
    block::finish(block, SAB1, header, 0, 0);
    1
}

/// Lays records in blocks, six each, places from the first on; the count of
/// blocks.
pub fn lay_records(
    records: &[Record],
    letters: Letters,
    header: &Header,
    first: usize,
    blocks: &mut [Block],
) -> usize {
    let runs = records.chunks(PER_BLOCK);
    let used = runs.len();
    for (i, (run, block)) in runs.zip(blocks).enumerate() {
        block::put_records(block, run);
        block::finish(block, letters, header, run.len(), first + i);
    }
    used
}

/// The blocks of a file, as they keep its records.
#[derive(Clone, Copy)]
pub struct Blocks<'a>(pub &'a [Block]);

impl Store for Blocks<'_> {
    #[inline(always)]
    fn record(&self, place: usize) -> &Record {
        block::record(&self.0[place / PER_BLOCK], place % PER_BLOCK)
    }
}

/// The blocks of a file, if they are whole, and so many at the most.
pub fn whole_blocks(file: &[u8], most: usize) -> Answer<&[Block]> {
    match file.as_chunks::<BLOCK>() {
        (blocks, []) if (1..=most).contains(&blocks.len()) => Ok(blocks),
        _ => refuse(2),
    }
}

/// The blocks of an SAB1 file of fit length.
pub fn blocks_of(file: &[u8]) -> Answer<Blocks<'_>> {
    whole_blocks(file, BLOCKS).map(Blocks)
}

/// Checks the blocks of a file, each wholly before the next; what their headers
/// say. Whether a count fits its place is for the form to say.
#[inline(always)]
pub fn check_blocks(
    blocks: &[Block],
    letters: Letters,
    count_fits: impl Fn(usize, usize) -> bool,
) -> Answer<Header> {
    let header = block::header(&blocks[0]);
    for (place, block) in blocks.iter().enumerate() {
        match block::fault(block, letters) {
            0 => (),
            number => return refuse_at(number, place),
        }
        let agrees = block::place(block) == place && block::header(block) == header;
        if !agrees || !count_fits(place, block::count(block)) {
            return refuse_at(20, place);
        }
    }
    Ok(header)
}

/// Checks the records in blocks, the first of which has a place, behind a base,
/// and counts them. Each is shown to `each` after its own check.
#[inline(always)]
pub fn check_records(
    Blocks(blocks): Blocks,
    first: usize,
    base: &Base,
    places: &mut Places,
    mut each: impl FnMut(&Places, &Fields, usize),
) -> Answer<Counts> {
    places.begin_on(base.vector);
    let mut held = Counts::on(base.vector);
    for (i, block) in blocks.iter().enumerate() {
        let place = first + i;
        for i in 0..block::count(block) {
            if held.all == RECORDS {
                return refuse_at(11, place);
            }
            let record = block::record(block, i);
            if !well_formed(record) {
                return refuse_at(7, place);
            }
            let fields = Fields::of(record);
            if !base.lists(fields.unit) {
                return refuse_at(26, place);
            }
            if !held.rank_before(&fields) {
                return refuse_at(20, place);
            }
            if !held.are_before(&fields) {
                return refuse_at(8, place);
            }
            if !places.are_closed(&fields) {
                return refuse_at(9, place);
            }
            places.add(&fields, held.all);
            each(places, &fields, held.all);
            held.add(&fields);
        }
    }
    Ok(held)
}

/// The vector of the headers counts all records; else the last block is at fault.
pub fn check_counts(header: &Header, held: &Counts, blocks: usize) -> Answer<()> {
    if header.vector != held.vector {
        return refuse_at(20, blocks - 1);
    }
    Ok(())
}

/// Checks an SAB1 file, all blocks and then all records, and counts it. Each
/// record is shown to `each` with its place after its own check.
#[inline(always)]
pub fn check_file(
    blocks: Blocks,
    places: &mut Places,
    each: impl FnMut(&Places, &Fields, usize),
) -> Answer<(Header, Counts)> {
    let last = blocks.0.len() - 1;
    let header = check_blocks(blocks.0, SAB1, |place, count| {
        count == PER_BLOCK || place == last && (count != 0 || last == 0)
    })?;
    let held = check_records(blocks, 0, &base::EMPTY, places, each)?;
    check_counts(&header, &held, blocks.0.len())?;
    Ok((header, held))
}

/// Reads a file of either form into a lent log and base. Their old bytes are not
/// judged. SAB1 leaves an empty base.
pub fn read_file(log: &mut [u8], base: &mut [u8], file: &[u8]) -> Answer<Head> {
    if log.len() != LOG || base.len() != BASE {
        return refuse(1);
    }
    if sab2::begins(file) {
        return sab2::read(log, base, file);
    }
    let blocks = blocks_of(file)?;
    let (header, held) = check_file(blocks, &mut Places::none(), |_, _, _| ())?;
    base::empty(base);
    Ok(copy_out(blocks, &header, &held, log))
}

/// Copies the records of a file that has passed into a log, zeros behind them;
/// what the file says of itself.
pub fn copy_out(Blocks(blocks): Blocks, header: &Header, held: &Counts, log: &mut [u8]) -> Head {
    let mut rest = log;
    for block in blocks {
        let from = block::records(block);
        let (part, behind) = rest.split_at_mut(from.len());
        part.copy_from_slice(from);
        rest = behind;
    }
    rest.fill(0);
    Head::of(header, held)
}
