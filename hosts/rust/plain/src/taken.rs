//! Taking blocks one after the other: all of them are judged, then what is new goes
//! in by one merge.

use crate::block::{self, Block, SAB1};
use crate::calls::State;
use crate::file::Blocks;
use crate::held::{Places, Store};
use crate::record::{Fields, Record, rank_of, well_formed};
use crate::vector::Vector;
use crate::{PER_BLOCK, RECORDS};

/// A record that is new: its rank, and its place among those of the blocks.
#[derive(Clone, Copy, Default, PartialEq, Eq, PartialOrd, Ord)]
pub struct New {
    rank: u32,
    place: u32,
}

/// How far the blocks were taken.
pub struct Taken {
    pub blocks: usize,
    /// Records that are now held, and how many of each unit, folded ones with them.
    pub held: usize,
    pub vector: Vector,
    /// The number of the block that was refused, or 0.
    pub stopped: u8,
}

/// Takes blocks in turn, up to the first that is refused, into the records of a
/// sound state. The memory for what is new has room for all that may be.
pub fn take_blocks(
    records: &mut [Record],
    state: &State,
    places: &mut Places,
    archive: u32,
    row: &[Block],
    new: &mut [New],
) -> Taken {
    let (_, mut held) = *state;
    let held_before = held.all;
    let blocks = Blocks(row);
    let mut taken = Taken {
        blocks: 0,
        held: held_before,
        vector: held.vector,
        stopped: 0,
    };
    for block in row {
        let mut judge = || -> Result<(), u8> {
            match block::fault(block, SAB1) {
                0 => (),
                number => return Err(number),
            }
            if block::header(block).archive != archive {
                return Err(6);
            }
            for i in 0..block::count(block) {
                let record = block::record(block, i);
                if !well_formed(record) {
                    return Err(7);
                }
                let fields = Fields::of(record);
                if !state.0.lists(fields.unit) {
                    return Err(26);
                }
                if places.is_folded(fields.identity()) {
                    continue;
                }
                if held.hold(&fields) {
                    let place = places.named(fields.identity());
                    let known = match place.checked_sub(held_before) {
                        None => &records[place],
                        Some(i) => blocks.record(new[i].place as usize),
                    };
                    if known != record {
                        return Err(10);
                    }
                    continue;
                }
                if !held.are_before(&fields) {
                    return Err(8);
                }
                if !state.0.vector.within(fields.seen) {
                    return Err(27);
                }
                if !places.are_closed(&fields) {
                    return Err(9);
                }
                if held.all == RECORDS {
                    return Err(11);
                }
                new[held.all - held_before] = New {
                    rank: fields.rank(),
                    place: (PER_BLOCK * taken.blocks + i) as u32,
                };
                places.add(&fields, held.all);
                held.add(&fields);
            }
            Ok(())
        };
        if let Err(number) = judge() {
            taken.stopped = number;
            break;
        }
        taken.blocks += 1;
        taken.held = held.all;
        taken.vector = held.vector;
    }
    let new = &mut new[..taken.held - held_before];
    new.sort_unstable();
    lay_in(records, held_before, blocks, new);
    taken
}

/// Lays new records of some blocks among the held ones, those of the highest ranks
/// first.
fn lay_in(records: &mut [Record], held: usize, blocks: Blocks, new: &[New]) {
    let mut end = held;
    for (before, new) in new.iter().enumerate().rev() {
        let lower = |record: &Record| rank_of(record) < new.rank;
        let at = records[..end]
            .iter()
            .rposition(lower)
            .map_or(0, |last| last + 1);
        records.copy_within(at..end, at + before + 1);
        records[at + before] = *blocks.record(new.place as usize);
        end = at;
    }
}
