//! How experiments are counted and bounded.

use std::cell::Cell;
use std::time::{Duration, Instant};

/// Failures that are told one by one, for each study.
const TOLD: u64 = 5;

/// What the name of a study says that had no time to end.
pub const STOPPED: &str = ", stopped by the clock";

/// How an experiment ends: with the same logs and trees as without the fault
/// (the value says whether records stand aside there), or
pub type End = Result<bool, Wrong>;

pub enum Wrong {
    /// Wrong bytes: taken although damaged, changed although refused, or units
    /// with the same vector that differ.
    Incorrect(String),
    /// No wrong byte, but calls alone do not get to the end: a person has to
    /// step in.
    Manual(String),
}

pub fn incorrect<T>(what: impl Into<String>) -> Result<T, Wrong> {
    Err(Wrong::Incorrect(what.into()))
}

pub fn manual<T>(what: impl Into<String>) -> Result<T, Wrong> {
    Err(Wrong::Manual(what.into()))
}

/// What is asked for.
pub struct Plan {
    pub long: bool,
    pub seed: u64,
    /// When the run ends, and when the study does.
    end: Instant,
    study_end: Cell<Instant>,
}

impl Plan {
    pub fn new(long: bool, time: Duration, seed: u64) -> Plan {
        let end = Instant::now() + time;
        Plan {
            long,
            seed,
            end,
            study_end: Cell::new(end),
        }
    }

    /// Gives the next study its share of the time, with so many still to run.
    pub fn share_time(&self, studies: usize) {
        let now = Instant::now();
        let left = self.end.saturating_duration_since(now);
        self.study_end.set(now + left / studies as u32);
    }

    /// There is time for more of the study.
    pub fn has_time(&self) -> bool {
        Instant::now() < self.study_end.get()
    }

    /// A count for a short run or a long one.
    pub fn count<T>(&self, short: T, long: T) -> T {
        if self.long { long } else { short }
    }
}

/// How a study's experiments ended.
#[derive(Default)]
pub struct Tally {
    pub correct: u64,
    incorrect: u64,
    manual: u64,
    with_asides: u64,
    stopped: bool,
}

impl Tally {
    /// Counts an experiment; `name` tells which if it failed.
    pub fn count(&mut self, name: impl FnOnce() -> String, end: End) {
        let what = match end {
            Ok(asides) => {
                self.correct += 1;
                self.with_asides += asides as u64;
                return;
            }
            Err(Wrong::Incorrect(what)) => {
                self.incorrect += 1;
                format!("incorrect: {what}")
            }
            Err(Wrong::Manual(what)) => {
                self.manual += 1;
                format!("manual: {what}")
            }
        };
        if self.failed() <= TOLD {
            println!("{}: {what}", name());
        }
    }

    /// There is time for more.
    pub fn goes_on(&mut self, plan: &Plan) -> bool {
        self.stopped |= !plan.has_time();
        !self.stopped
    }

    pub fn failed(&self) -> u64 {
        self.incorrect + self.manual
    }

    pub fn head() {
        println!("| Study | # of exps | correct | incorrect | manual | with asides |");
        println!("|---|---|---|---|---|---|");
    }

    pub fn row(&self, name: &str) {
        let all = self.correct + self.failed();
        let share = |count: u64| {
            let percent = 100.0 * count as f64 / all.max(1) as f64;
            format!("{count} ({percent:.1}%)")
        };
        let stopped = if self.stopped { STOPPED } else { "" };
        println!(
            "| {name}{stopped} | {all} | {} | {} | {} | {} |",
            share(self.correct),
            share(self.incorrect),
            share(self.manual),
            self.with_asides
        );
    }
}
