//! A number used twice: what plain meetings do not notice, and careful ones do.
//!
//! Three units act and meet. Then one of them uses numbers twice, and all meet
//! until nothing is lacking or a take refuses. The trials are the same for each
//! way of meeting.

use crate::study::{Plan, STOPPED};
use crate::world::ARCHIVE;
use plain::{TREE, EMPTY_BASE};
use sab::{Answer, Asking, Identity, Log, Pass, Unit};
use std::ops::RangeInclusive;
use workload::{Chance, Mix, Units, wish};

const UNITS: usize = 3;

/// 4 March 2025.
const DAY: [u8; 4] = [0xe9, 7, 3, 4];

/// How a number comes to be used twice.
#[derive(Clone, Copy)]
enum Cause {
    /// A unit loses its log, is started, and acts before it takes its records
    /// back.
    Restart,
    /// A laptop acts on a copy of a unit's card, and the unit acts too.
    Copy,
}

const CAUSES: [(Cause, &str); 2] = [
    (Cause::Restart, "unit started again"),
    (Cause::Copy, "laptop acts on a card"),
];

const ACTS: [(RangeInclusive<usize>, &str); 3] =
    [(1..=1, "1"), (1..=3, "1 to 3"), (1..=10, "1 to 10")];

/// How one log takes what it lacks of another.
type Way = fn(&Log, &mut Log) -> Pass;

const WAYS: [(Way, &str); 3] = [
    (plainly, "plain"),
    (sab::pass, "careful"),
    (thoroughly, "thorough"),
];

/// Asks with the vector that is held.
fn plainly(from: &Log, to: &mut Log) -> Pass {
    let before = to.records().len();
    let mut pass_all = || -> Answer<()> {
        loop {
            let block = from.hand_out(&to.vector()?)?;
            if block.is_empty() {
                return Ok(());
            }
            to.take(block)?;
        }
    };
    let refusal = pass_all().err();
    Pass {
        records: (to.records().len() - before) as u32,
        refusal,
        ..Pass::default()
    }
}

/// Asks for every record.
fn thoroughly(from: &Log, to: &mut Log) -> Pass {
    Asking::thorough().pass(from, to)
}

/// Makes one more record. All are of one day, so that two may be the same.
fn act(chance: &mut Chance, mix: &Mix, log: &mut [u8], unit: usize) {
    let mut tree = [0; TREE];
    loop {
        plain::show(log, &EMPTY_BASE, &mut tree).expect("a sound log");
        let mut wish = wish(chance, mix, unit as u8, &tree);
        wish[28..32].copy_from_slice(&DAY);
        if plain::act(log, &EMPTY_BASE, &mut [], ARCHIVE, unit as u8, &wish).is_ok() {
            return;
        }
    }
}

/// The logs with which the meetings begin: those of the units, and the laptop's.
fn trial(chance: &mut Chance, cause: Cause, acts: &RangeInclusive<usize>) -> Vec<Log> {
    let mix = *chance.pick(&[Mix::BENCH, Mix::CONFLICTS]);
    let mut life = Units::empty(UNITS, ARCHIVE);
    for _ in 0..3 + chance.below(38) {
        let unit = chance.below(UNITS);
        act(chance, &mix, &mut life.logs[unit], unit);
        if chance.one_in(4) {
            let other = chance.below(UNITS);
            life.pass(unit, other);
        }
    }
    let twice = chance.below(UNITS);
    let mut units = vec![0, 1, 2];
    match cause {
        Cause::Restart => life.logs[twice].fill(0),
        Cause::Copy => {
            units.push(twice);
            life.logs.push(life.logs[twice].clone());
        }
    }
    for (unit, log) in units.iter().zip(&mut life.logs) {
        if *unit == twice {
            for _ in 0..acts.start() + chance.below(acts.end() - acts.start() + 1) {
                act(chance, &mix, log, twice);
            }
        }
    }
    let logs = units.iter().zip(&life.logs);
    logs.map(|(unit, log)| Log::from_bytes(ARCHIVE, Unit::ALL[*unit], log, &EMPTY_BASE).expect("a sound log"))
        .collect()
}

/// All pairs of so many logs.
fn pairs(logs: usize) -> Vec<[usize; 2]> {
    let pairs = |one| (0..one).map(move |other| [one, other]);
    (0..logs).flat_map(pairs).collect()
}

/// Two of the logs hold other bytes under one identity.
fn differ(logs: &[Log]) -> bool {
    pairs(logs.len()).into_iter().any(|[one, other]| {
        logs[one].records().any(|record| {
            let held = logs[other].record(record.identity());
            held.is_some_and(|held| held != record)
        })
    })
}

/// Of some unit, the last record that both logs hold has other bytes.
fn last_differs(one: &Log, other: &Log) -> bool {
    let counts = [one, other].map(|log| log.vector().expect("a sound log"));
    Unit::ALL.into_iter().any(|unit| {
        let last = Identity::new(unit, counts[0][unit].min(counts[1][unit]));
        last.is_some_and(|last| one.record(last) != other.record(last))
    })
}

/// How the trials of one row ended.
#[derive(Default)]
struct Row {
    /// By the numbers 10, 8 and 9.
    noticed: [u64; 3],
    unnoticed: u64,
    /// Of these, with other trees.
    other_trees: u64,
    /// Meetings that passed all although a last record differed.
    missed: u64,
}

impl Row {
    fn run(plan: &Plan, cause: Cause, acts: &RangeInclusive<usize>, way: Way) -> Row {
        let mut row = Row::default();
        let mut chance = Chance::new(plan.seed);
        while row.trials() < plan.count(100, 5000) && plan.has_time() {
            let logs = trial(&mut chance, cause, acts);
            if differ(&logs) {
                row.meet_all(logs, &mut Chance::new(chance.number()), way);
            }
        }
        row
    }

    fn trials(&self) -> u64 {
        self.noticed.iter().sum::<u64>() + self.unnoticed
    }

    /// All meet in twos, in any order, until nothing is passed or one refuses.
    fn meet_all(&mut self, mut logs: Vec<Log>, chance: &mut Chance, way: Way) {
        loop {
            let mut pairs = pairs(logs.len());
            let mut passed = 0;
            while !pairs.is_empty() {
                let pair = pairs.swap_remove(chance.below(pairs.len()));
                let [one, other] = logs.get_disjoint_mut(pair).expect("two logs");
                let must = last_differs(one, other);
                for pass in [way(one, other), way(other, one)] {
                    passed += pass.records;
                    if let Some(refusal) = pass.refusal {
                        let numbers = [10, 8, 9];
                        let number = numbers.iter().position(|it| *it == refusal.number);
                        self.noticed[number.expect("10, 8 or 9")] += 1;
                        return;
                    }
                }
                self.missed += must as u64;
            }
            if passed == 0 {
                break;
            }
        }
        assert!(differ(&logs), "logs that were mended");
        let trees: Vec<_> = logs.iter().map(|log| log.show().expect("sound")).collect();
        self.unnoticed += 1;
        self.other_trees += trees.iter().any(|tree| *tree != trees[0]) as u64;
    }
}

/// Runs the trials and prints their table. How many went as careful meetings
/// must: none passes all while the last record that both hold differs.
pub fn table(plan: &Plan) -> (u64, u64) {
    println!(
        "| Number used twice | acts | meetings | # of trials | noticed | by 10, 8, 9 | unnoticed | with other trees |"
    );
    println!("|---|---|---|---|---|---|---|---|");
    let (mut passed, mut missed) = (0, 0);
    for (cause, name) in CAUSES {
        for (acts, many) in &ACTS {
            for (way, how) in WAYS {
                let row = Row::run(plan, cause, acts, way);
                let stopped = if plan.has_time() { "" } else { STOPPED };
                let trials = row.trials();
                let share = |count: u64| {
                    let percent = 100.0 * count as f64 / trials.max(1) as f64;
                    format!("{count} ({percent:.1}%)")
                };
                println!(
                    "| {name}{stopped} | {many} | {how} | {trials} | {} | {} | {} | {} |",
                    share(trials - row.unnoticed),
                    row.noticed.map(|count| count.to_string()).join(", "),
                    share(row.unnoticed),
                    row.other_trees
                );
                if how != "plain" {
                    passed += trials;
                    missed += row.missed;
                }
            }
        }
    }
    (passed, missed)
}
