//! Plans: rounds of visits beside the same calls one by one, and plans with a
//! changed byte.

use crate::study::{End, Plan, Tally, Wrong, incorrect};
use crate::world::{ARCHIVE, tree_of};
use library::{LOG, LOGS, Library, PlanRefusal};
use plain::{BLOCK, EMPTY_BASE, RECORD, RECORDS};
use workload::{Chance, Mix, vector_of, wish};

const EVENT: usize = 4 + RECORD;

/// A round of visits as blocks, what the units hold that do its calls one by one,
/// and how many acts they could not do.
struct Round {
    plan: Vec<u8>,
    logs: Vec<Vec<u8>>,
    skipped: usize,
}

fn seal(block: &mut [u8; BLOCK]) {
    let (first, second) = plain::sums(block);
    block[508..510].copy_from_slice(&first.to_le_bytes());
    block[510..].copy_from_slice(&second.to_le_bytes());
}

fn blocks(events: &[[u8; EVENT]]) -> Vec<u8> {
    let block = |events: &[[u8; EVENT]]| {
        let mut block = [0; BLOCK];
        block[..4].copy_from_slice(b"PLN1");
        block[4..8].copy_from_slice(&ARCHIVE.to_le_bytes());
        block[9] = events.len() as u8;
        block[28..28 + EVENT * events.len()].copy_from_slice(events.as_flattened());
        seal(&mut block);
        block
    };
    events.chunks(5).flat_map(block).collect()
}

/// Draws events and does each of them by the calls of the library.
fn drawn(library: &dyn Library, mix: &Mix, events: usize, seed: u64) -> Result<Round, Wrong> {
    let mut chance = Chance::new(seed);
    let mut logs = vec![vec![0; LOG]; 8];
    let (mut plan, mut made, mut skipped) = (Vec::new(), 0, 0);
    for _ in 0..events {
        let unit = chance.below(8);
        let mut event = [0; EVENT];
        if chance.below(3) == 0 {
            let other = (unit + 1 + chance.below(7)) % 8;
            event[..3].copy_from_slice(&[2, unit as u8, other as u8]);
            let mut block = [0; BLOCK];
            let asked = vector_of(&logs[other]);
            let from = &logs[unit];
            let handed = library.hand_out(from, &EMPTY_BASE, ARCHIVE, unit as u32, &asked, &mut block);
            let to = &mut logs[other];
            let taken = library.take(to, &EMPTY_BASE, &mut [], ARCHIVE, other as u32, &block);
            if handed.is_err() || taken.is_err() {
                return incorrect(format!("a pass is refused: {handed:?}, {taken:?}"));
            }
        } else {
            let tree = tree_of(library, &logs[unit])?;
            let Some(tree) = tree.first_chunk() else {
                return incorrect("a tree that is too short");
            };
            let wish = wish(&mut chance, mix, unit as u8, tree);
            event[..2].copy_from_slice(&[1, unit as u8]);
            event[4..].copy_from_slice(&wish);
            let log = &mut logs[unit];
            let done = made < RECORDS
                && library.act(log, &EMPTY_BASE, &mut [], ARCHIVE, unit as u32, &wish).is_ok();
            made += usize::from(done);
            skipped += usize::from(!done);
        }
        plan.push(event);
    }
    Ok(Round {
        plan: blocks(&plan),
        logs,
        skipped,
    })
}

fn tried(library: &dyn Library, plan: &[u8]) -> (Result<(), PlanRefusal>, String, Vec<u8>) {
    let mut logs = vec![0xa5; LOGS];
    let Some(round) = logs.first_chunk_mut() else {
        unreachable!("eight logs");
    };
    let (tried, text) = library.try_plan(plan, round);
    (tried, String::from_utf8_lossy(&text).into_owned(), logs)
}

/// A round comes to what its calls come to, one by one.
pub fn rounds(library: &dyn Library, plan: &Plan) -> Tally {
    let mut tally = Tally::default();
    for round in 0..plan.count(40, 3000) {
        if !tally.goes_on(plan) {
            return tally;
        }
        let size = [5, 40, 200, 900][round % 4];
        let mix = [Mix::CONFLICTS, Mix::MOVES, Mix::CASES][round % 3];
        let end = one_round(library, &mix, size, plan.seed + round as u64);
        tally.count(|| format!("round {round}"), end);
    }
    tally
}

fn one_round(library: &dyn Library, mix: &Mix, size: usize, seed: u64) -> End {
    let round = drawn(library, mix, size, seed)?;
    let (tried, text, logs) = tried(library, &round.plan);
    if tried != Ok(()) {
        return incorrect(format!("{tried:?}"));
    }
    if logs != round.logs.concat() {
        return incorrect("other logs than by single calls");
    }
    if !text.ends_with(&format!("skipped {}\n", round.skipped)) {
        return incorrect("another number of acts skipped");
    }
    Ok(false)
}

/// A changed byte is noticed at its block.
pub fn changed(library: &dyn Library, plan: &Plan) -> Tally {
    let mut tally = Tally::default();
    let mut chance = Chance::new(plan.seed);
    let Ok(round) = drawn(library, &Mix::CONFLICTS, 60, plan.seed) else {
        return tally;
    };
    for at in 0..plan.count(300, 60_000) {
        if !tally.goes_on(plan) {
            return tally;
        }
        let mut bytes = round.plan.clone();
        let place = chance.below(bytes.len());
        bytes[place] ^= 1 + chance.below(255) as u8;
        let due = PlanRefusal {
            number: if place % BLOCK < 4 { 3 } else { 4 },
            place: (place / BLOCK) as u16,
        };
        let (tried, text, logs) = tried(library, &bytes);
        let line = format!("refused {} at {}\n", due.number, due.place);
        let end = if tried != Err(due) || text != line {
            incorrect(format!("{tried:?}, not {due:?}"))
        } else if logs.iter().any(|byte| *byte != 0xa5) {
            incorrect("refused, but a log changed")
        } else {
            Ok(false)
        };
        tally.count(|| format!("byte {at}"), end);
    }
    tally
}
