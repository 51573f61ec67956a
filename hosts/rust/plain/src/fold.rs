//! Folding: the records that every listed unit has heard go from the log into
//! the base.

use crate::base::{self, Base, lists_all};
use crate::calls::{State, open_trees, records_of, unit_fits};
use crate::held::Places;
use crate::record::{Fields, Record};
use crate::replay::{Replay, Room, Source};
use crate::table::{write_asides, write_entries};
use crate::vector::Vector;
use crate::{Answer, BASE_ROWS, RECORD, RECORDS, refuse};

/// Lists the archive's units, bit u for unit u, and folds the longest run of
/// records that all of them have heard and whose base has room; answers how many
/// were folded.
pub fn fold(log: &mut [u8], base: &mut [u8], _archive: u32, unit: u8, list: u8) -> Answer<u16> {
    let (records, lent) = (records_of(log)?, base::lent(base)?);
    unit_fits(unit)?;
    let mut places = Places::none();
    let mut other_room;
    let mut room = Room::for_log(records, lent);
    let mut replay = room.replay();
    let mut has_room = [false; RECORDS];
    let state = open_trees(records, lent, &mut places, &mut replay, |replay, place| {
        has_room[place] = replay.present <= BASE_ROWS && replay.aside <= BASE_ROWS;
    })?;
    let (base_then, held) = state;
    if list >> unit & 1 == 0 || !lists_all(list, held.vector) {
        return refuse(26);
    }
    let heard = heard_run(&records[..held.all], &state, &places, unit as usize, list);
    let last = has_room[..heard].iter().rposition(|has_room| *has_room);
    let run = last.map_or(0, |last| last + 1);
    // Its rows are read while those of the new one are written.
    let rows;
    let source = Source {
        base: match base_then.is_bare() {
            true => Base {
                entries: &[],
                asides: &[],
                ..base_then
            },
            false => {
                rows = *lent;
                base_then.in_copy(&rows)
            }
        },
        store: &records[..run],
    };
    if run != held.all {
        other_room = Room::of(run, base_then.is_bare());
        replay = Replay::of(&mut other_room, &source, run);
    }
    let all = held.all;
    write(base, list, run, &replay, &source)?;
    log.copy_within(run * RECORD..all * RECORD, 0);
    log[(all - run) * RECORD..all * RECORD].fill(0);
    Ok(run as u16)
}

/// How many records from the first on every listed unit has heard.
fn heard_run(held: &[Record], (_, counts): &State, places: &Places, own: usize, list: u8) -> usize {
    let heard_by = |unit: usize| match unit {
        _ if list >> unit & 1 == 0 => None,
        _ if unit == own => Some(counts.vector),
        _ => Some(places.heard(unit)),
    };
    let heard: [Option<Vector>; 8] = core::array::from_fn(heard_by);
    let is_heard = |record: &Record| {
        let fields = Fields::of(record);
        let mut listed = heard.iter().flatten();
        listed.all(|heard| fields.number <= heard.count(fields.unit))
    };
    held.iter().take_while(|record| is_heard(record)).count()
}

/// Writes every byte of the base with a list and a run of records in it: the vector
/// counts them, the entries are those present after them, and no dispute is written.
fn write(
    base: &mut [u8],
    list: u8,
    run: usize,
    replay: &Replay,
    source: &Source<&[Record]>,
) -> Answer<()> {
    let (head, entry_rows, aside_rows) = base::parts_mut(base::lent_mut(base)?);
    let entries = write_entries(entry_rows, run, replay, source, |_| false);
    let asides = write_asides(aside_rows, run, replay, source);
    entry_rows[entries..].as_flattened_mut().fill(0);
    aside_rows[asides..].as_flattened_mut().fill(0);
    let vector = source
        .store
        .iter()
        .fold(source.base.vector, |vector, record| {
            vector.and_one_of(Fields::of(record).unit)
        });
    let made = Base {
        list,
        vector,
        entries: &entry_rows[..entries],
        asides: &aside_rows[..asides],
    };
    head.fill(0);
    made.put_head(head);
    Ok(())
}
