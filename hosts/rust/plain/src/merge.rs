//! One file out of two.

use crate::block::Header;
use crate::file::{Blocks, blocks_of, check_file, lay_file};
use crate::held::{Counts, Places, Store};
use crate::record::{Fields, Record, rank_of};
use crate::{Answer, FILE, LOG, PER_BLOCK, RECORD, RECORDS, Refusal, refuse, refuse_at};

/// A merge's no, with the file at fault: 1, 2, or 0 for neither.
#[derive(Clone, Copy, Debug, PartialEq, Eq)]
pub struct MergeRefusal {
    pub refusal: Refusal,
    pub file: u8,
}

/// A file that has been checked.
struct Checked<'a> {
    blocks: Blocks<'a>,
    header: Header,
    held: Counts,
    places: Places,
}

impl Checked<'_> {
    #[inline(always)]
    fn of(file: &[u8]) -> Answer<Checked<'_>> {
        let blocks = blocks_of(file)?;
        let mut places = Places::none();
        let (header, held) = check_file(blocks, &mut places, |_, _, _| ())?;
        Ok(Checked {
            blocks,
            header,
            held,
            places,
        })
    }

    fn record(&self, place: usize) -> &Record {
        self.blocks.record(place)
    }

    /// The first of the other file's records that this one has with other bytes.
    fn clash(&self, other: &Checked) -> Answer<()> {
        for place in 0..other.held.all {
            let record = other.record(place);
            let fields = Fields::of(record);
            if self.held.hold(&fields)
                && self.record(self.places.named(fields.identity())) != record
            {
                return refuse_at(10, place / PER_BLOCK);
            }
        }
        Ok(())
    }

    /// The place of the first record from a place on that another file lacks.
    #[inline(always)]
    fn lacked(&self, other: &Checked, mut place: usize) -> usize {
        while place < self.held.all && other.held.hold(&Fields::of(self.record(place))) {
            place += 1;
        }
        place
    }

    /// The first of the other file's records that is the 513th.
    fn room(&self, other: &Checked) -> Answer<()> {
        let mut place = other.lacked(self, 0);
        for _ in self.held.all..RECORDS {
            place = other.lacked(self, place + 1);
        }
        if place < other.held.all {
            return refuse_at(11, place / PER_BLOCK);
        }
        Ok(())
    }

    /// The records of both, by rank, laid in a log; how many.
    fn lay_both(&self, other: &Checked, log: &mut [Record]) -> usize {
        let (mut own, mut new) = (0, other.lacked(self, 0));
        let mut used = 0;
        while own < self.held.all || new < other.held.all {
            let own_first = new == other.held.all
                || own < self.held.all && rank_of(self.record(own)) < rank_of(other.record(new));
            if own_first {
                log[used] = *self.record(own);
                own += 1;
            } else {
                log[used] = *other.record(new);
                new = other.lacked(self, new + 1);
            }
            used += 1;
        }
        log[used..].as_flattened_mut().fill(0);
        used
    }
}

/// The second file is of the same archive, has no record of the first with other
/// bytes, and all of both have room.
fn go_together(first: &Checked, second: &Checked) -> Answer<()> {
    if second.header.archive != first.header.archive {
        return refuse(6);
    }
    first.clash(second)?;
    first.room(second)
}

/// Makes one file of all records of two, under the archive and unit of the first;
/// answers its count of blocks. The lent log, whose old bytes are not judged,
/// then holds the same records.
pub fn merge(
    first: &[u8],
    second: &[u8],
    log: &mut [u8],
    file: &mut [u8],
) -> Result<u16, MergeRefusal> {
    let of = |file: u8| move |refusal| MergeRefusal { refusal, file };
    if log.len() != LOG || file.len() != FILE {
        return refuse(1).map_err(of(0));
    }
    let first = Checked::of(first).map_err(of(1))?;
    let second = Checked::of(second).map_err(of(2))?;
    go_together(&first, &second).map_err(of(2))?;
    let (records, _) = log.as_chunks_mut::<RECORD>();
    let used = first.lay_both(&second, records);
    let header = Header {
        vector: first.held.vector.higher(second.held.vector),
        ..first.header
    };
    Ok(lay_file(&records[..used], &header, file))
}
