//! `faults [--long] [--seconds N] [--seed N]`: the fault run against the static
//! library. Prints how each study's experiments ended, under the headings of
//! document 004's table, how often a number that was used twice is noticed, and
//! 'N passed, M failed'. Counts are fixed by the
//! length of the run; the time bounds it all the same.

mod bytes;
mod cards;
mod cuts;
mod folds;
mod index;
mod lists;
mod orders;
mod plans;
mod power;
mod replays;
mod rows;
mod sab2;
mod study;
mod twice;
mod world;

use library::Library;
use std::process::ExitCode;
use std::time::Duration;
use study::{Plan, Tally};

type Study = fn(&dyn Library, &Plan) -> Tally;

const STUDIES: [(&str, Study); 26] = [
    ("meetings, no fault", cuts::none),
    ("changed byte, block", bytes::blocks),
    ("changed byte, file", bytes::files),
    ("file copied short", bytes::short_files),
    ("cut between blocks", cuts::between),
    ("cut inside a block", cuts::inside),
    ("orders of meetings", orders::all),
    ("power lost", power::lost),
    ("file half stored", power::half_stored),
    ("two cards, no fault", cards::whole),
    ("two cards, changed byte", cards::changed),
    ("two cards, number used twice", cards::used_twice),
    ("two cards, too many records", cards::too_many),
    ("call lists", lists::all),
    ("meetings by rows", rows::meetings),
    ("changed byte, row", rows::changed),
    ("index kept and asked", index::kept),
    ("units that fold", folds::lives),
    ("changed byte, base", folds::changed),
    ("SAB2 files, no fault", sab2::whole),
    ("changed byte, SAB2 file", sab2::changed),
    ("SAB2 file copied short", sab2::short),
    ("changed byte under right sums, SAB2 file", sab2::sealed),
    ("another maker's orders", replays::checked),
    ("rounds of visits", plans::rounds),
    ("changed byte, plan", plans::changed),
];

const USAGE: &str = "usage: faults [--long] [--seconds N] [--seed N]";

fn plan() -> Option<Plan> {
    let mut words = std::env::args().skip(1);
    let (mut long, mut seconds, mut seed) = (false, None, 1);
    while let Some(word) = words.next() {
        match word.as_str() {
            "--long" => long = true,
            "--seconds" => seconds = Some(words.next()?.parse().ok()?),
            "--seed" => seed = words.next()?.parse().ok()?,
            _ => return None,
        }
    }
    let seconds = seconds.unwrap_or(if long { 7200 } else { 120 });
    Some(Plan::new(long, Duration::from_secs(seconds), seed))
}

fn main() -> ExitCode {
    let Some(plan) = plan() else {
        eprintln!("{USAGE}");
        return ExitCode::from(2);
    };
    let mut tallies = Vec::new();
    for (i, (name, study)) in STUDIES.into_iter().enumerate() {
        plan.share_time(STUDIES.len() + 1 - i);
        tallies.push((name, study(&library::Static, &plan)));
    }
    Tally::head();
    for (name, tally) in &tallies {
        tally.row(name);
    }
    println!();
    plan.share_time(1);
    let (noticing, missing) = twice::table(&plan);
    let passed: u64 = tallies.iter().map(|(_, tally)| tally.correct).sum();
    let failed: u64 = tallies.iter().map(|(_, tally)| tally.failed()).sum();
    let (passed, failed) = (passed + noticing, failed + missing);
    println!("\n{passed} passed, {failed} failed");
    if failed == 0 && tallies.iter().all(|(_, tally)| tally.correct > 0) {
        ExitCode::SUCCESS
    } else {
        ExitCode::FAILURE
    }
}
