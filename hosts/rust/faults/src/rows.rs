//! Rows: meetings by rows, and rows with a changed byte.

use crate::study::{End, Plan, Tally, Wrong, incorrect, manual};
use crate::world::{ARCHIVE, Goal, apart, take, tree_of};
use library::{Library, REPORT, RowTaken, Trial};
use plain::{BLOCK, EMPTY_BASE, FILE, LOG, TREE};
use workload::{Chance, Mix, vector_of};

/// The row that a unit hands out to another log.
fn hand_out(
    library: &dyn Library,
    from: &[u8],
    unit: usize,
    to: &[u8],
) -> Result<Vec<u8>, Wrong> {
    let mut row = vec![0xa5; FILE];
    match library.hand_out_row(from, &EMPTY_BASE, ARCHIVE, unit as u32, &vector_of(to), &mut row) {
        Ok(blocks) => {
            let (blocks, behind) = row.split_at(BLOCK * usize::from(blocks));
            match behind.iter().all(|byte| *byte == 0) {
                true => Ok(blocks.to_vec()),
                false => incorrect("bytes behind the row"),
            }
        }
        Err(refusal) => manual(format!("no row: {refusal:?}")),
    }
}

/// Tries a row, then takes it: both must say this, and leave the same log.
fn both(library: &dyn Library, log: &mut Vec<u8>, unit: usize, row: &[u8], due: RowTaken) -> End {
    let before = log.clone();
    let mut trial = Trial {
        copy: vec![0xa5; LOG],
        tree: vec![0xa5; TREE],
        report: vec![0xa5; REPORT],
    };
    if library.try_row(log, &EMPTY_BASE, ARCHIVE, unit as u32, row, &mut trial) != Ok(()) {
        return incorrect("the trial is refused");
    }
    if *log != before {
        return incorrect("the trial changed the log");
    }
    if (trial.report[0], trial.report[1]) != (due.taken, due.stopped) {
        return incorrect(format!("{:?} tried, not {due:?}", &trial.report[..2]));
    }
    let taken = library.take_row(log, &EMPTY_BASE, &mut [], ARCHIVE, unit as u32, row);
    if taken != Ok(due) {
        return incorrect(format!("{taken:?}, not {due:?}"));
    }
    if *log != trial.copy || tree_of(library, log)? != trial.tree {
        return incorrect("the trial left another log or tree");
    }
    Ok(false)
}

/// Meetings by rows end where meetings by single blocks do.
pub fn meetings(library: &dyn Library, plan: &Plan) -> Tally {
    let mut tally = Tally::default();
    for round in 0..plan.count(60, 4000) {
        if !tally.goes_on(plan) {
            return tally;
        }
        let size = [3, 16, 60, 200, 400][round % 5];
        let mix = [Mix::CONFLICTS, Mix::MOVES, Mix::CASES][round % 3];
        let mut logs = apart(2, size, &mix, plan.seed + round as u64);
        let goal = Goal::of(&logs);
        let end = meet(library, &mut logs).and_then(|()| goal.reached(library, &logs));
        tally.count(|| format!("meeting {round}"), end);
    }
    tally
}

fn meet(library: &dyn Library, logs: &mut [Vec<u8>]) -> Result<(), Wrong> {
    for (from, to) in [(0, 1), (1, 0)] {
        let row = hand_out(library, &logs[from], from, &logs[to])?;
        let taken = (row.len() / BLOCK) as u8;
        both(library, &mut logs[to], to, &row, RowTaken { taken, stopped: 0 })?;
    }
    Ok(())
}

/// A changed byte stops a row at its block, and the blocks before it are taken.
pub fn changed(library: &dyn Library, plan: &Plan) -> Tally {
    let mut tally = Tally::default();
    let mut chance = Chance::new(plan.seed);
    for round in 0..plan.count(300, 60_000) {
        if !tally.goes_on(plan) {
            return tally;
        }
        let size = [16, 60, 200][round % 3];
        let logs = apart(2, size, &Mix::MOVES, plan.seed + (round % 24) as u64);
        let end = changed_one(library, &logs, &mut chance);
        tally.count(|| format!("row {round}"), end);
    }
    tally
}

fn changed_one(library: &dyn Library, logs: &[Vec<u8>], chance: &mut Chance) -> End {
    let mut row = hand_out(library, &logs[0], 0, &logs[1])?;
    if row.is_empty() {
        return Ok(false);
    }
    let place = chance.below(row.len());
    row[place] ^= 1 + chance.below(255) as u8;
    let at = place / BLOCK;
    let stopped = if place % BLOCK < 4 { 3 } else { 4 };
    let mut log = logs[1].clone();
    let taken = at as u8;
    both(library, &mut log, 1, &row, RowTaken { taken, stopped })?;
    let mut single = logs[1].clone();
    for block in row.chunks(BLOCK).take(at) {
        take(library, &mut single, 1, block)?;
    }
    if log != single {
        return incorrect("another log than by single blocks");
    }
    Ok(false)
}
