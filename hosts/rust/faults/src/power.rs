//! Power lost between any two calls, and while a file is stored.

use crate::study::{End, Plan, Tally, Wrong, incorrect, manual};
use crate::world::{ARCHIVE, Goal, apart, file_of, first, hand_out, take};
use library::Library;
use plain::{BLOCK, EMPTY_BASE, FILE, LOG};
use workload::{Chance, Mix, log_of, wish};

/// Where power is lost: at these units, behind this call, and whether the host
/// had stored what the call left.
#[derive(Clone, Copy, Debug)]
struct Loss {
    units: [bool; 2],
    call: usize,
    stored: bool,
}

/// Two units, each with a log in memory and the file of it that its host stored
/// last.
struct Hosts<'a> {
    library: &'a dyn Library,
    logs: Vec<Vec<u8>>,
    files: Vec<Vec<u8>>,
    calls: usize,
    loss: Option<Loss>,
}

impl Hosts<'_> {
    fn store(&mut self, unit: usize) -> Result<(), Wrong> {
        let mut file = vec![0xa5; FILE];
        match self
            .library
            .write_file(&self.logs[unit], &EMPTY_BASE, ARCHIVE, unit as u32, &mut file)
        {
            Ok(blocks) => file.truncate(BLOCK * blocks as usize),
            Err(refusal) => return manual(format!("no file: {refusal:?}")),
        }
        self.files[unit] = file;
        Ok(())
    }

    /// A call has returned: the host stores the log of its unit, and power may be
    /// lost before or after that. Says whether it was.
    fn after_call(&mut self, unit: usize) -> Result<bool, Wrong> {
        let call = self.calls;
        self.calls += 1;
        let loss = self.loss.filter(|loss| loss.call == call);
        let unstored = loss.is_some_and(|loss| !loss.stored && loss.units[unit]);
        if !unstored {
            self.store(unit)?;
        }
        let Some(loss) = loss else {
            return Ok(false);
        };
        for unit in (0..2).filter(|unit| loss.units[*unit]) {
            // What memory held is gone.
            self.logs[unit] = (0..LOG).map(|i| (9 + 31 * i) as u8).collect();
            let answer = self
                .library
                .read_file(&mut self.logs[unit], &mut EMPTY_BASE.clone(), &self.files[unit]);
            if let Err(refusal) = answer {
                return manual(format!("the stored file is refused: {refusal:?}"));
            }
        }
        Ok(true)
    }

    /// Acts until the unit holds so many own records. The same act is wished
    /// again if it was lost.
    fn act(&mut self, unit: usize, wishes: &[[u8; 80]], own: usize) -> Result<(), Wrong> {
        let count = |log: &[u8]| workload::vector_of(log)[unit] as usize;
        while count(&self.logs[unit]) < own {
            let wish = &wishes[count(&self.logs[unit])];
            let answer = self
                .library
                .act(&mut self.logs[unit], &EMPTY_BASE, &mut [], ARCHIVE, unit as u32, wish);
            if let Err(refusal) = answer {
                return manual(format!("an act is refused: {refusal:?}"));
            }
            self.after_call(unit)?;
        }
        Ok(())
    }

    /// Passes all; a block on its way is lost with the power.
    fn pass(&mut self, from: usize, to: usize) -> Result<(), Wrong> {
        loop {
            let block = hand_out(self.library, &self.logs[from], from, &self.logs[to])?;
            if self.after_call(from)? {
                continue;
            }
            if block[9] == 0 {
                return Ok(());
            }
            take(self.library, &mut self.logs[to], to, &block)?;
            self.after_call(to)?;
        }
    }
}

/// What each unit wishes: makes in the root, every third under a label that the
/// other wishes too.
fn wishes(seed: u64, count: usize) -> Vec<Vec<[u8; 80]>> {
    let mix = Mix {
        weights: [1, 1, 0, 0, 0, 0, 0],
        labels: 1,
        cases: false,
    };
    let label = |unit: u64, i: usize| match i % 3 {
        1 => format!("W{i}"),
        _ => format!("W{i} of {unit}"),
    };
    (0..2)
        .map(|unit| {
            let mut chance = Chance::new(seed + unit);
            (0..count)
                .map(|i| {
                    let mut wish = wish(&mut chance, &mix, unit as u8, &[0; plain::TREE]);
                    let label = label(unit, i);
                    wish[32..64].fill(0);
                    wish[32..32 + label.len()].copy_from_slice(label.as_bytes());
                    wish
                })
                .collect()
        })
        .collect()
}

/// A whole run: both act, meet, act again and meet; power is lost where said.
fn run<'a>(
    library: &'a dyn Library,
    wishes: &[Vec<[u8; 80]>],
    loss: Option<Loss>,
) -> Result<Hosts<'a>, Wrong> {
    let mut hosts = Hosts {
        library,
        logs: vec![vec![0; LOG]; 2],
        files: Vec::new(),
        calls: 0,
        loss,
    };
    hosts.files = hosts.logs.iter().map(|log| file_of(log)).collect();
    let half = wishes[0].len() / 2;
    for own in [half, wishes[0].len()] {
        hosts.act(0, &wishes[0], own)?;
        hosts.act(1, &wishes[1], own)?;
        hosts.pass(0, 1)?;
        hosts.pass(1, 0)?;
    }
    Ok(hosts)
}

/// Power lost behind every call, at either unit and at both, before and after
/// the host has stored.
pub fn lost(library: &dyn Library, plan: &Plan) -> Tally {
    let mut tally = Tally::default();
    for round in 0..plan.count(1, 12) {
        let wishes = wishes(31 * plan.seed + round, plan.count(14, 40));
        let Ok(uncut) = run(&library::Plain, &wishes, None) else {
            tally.count(|| format!("run {round}"), incorrect("the plain run fails"));
            return tally;
        };
        let goal = Goal::of(&uncut.logs);
        for call in 0..uncut.calls {
            for units in [[true, false], [false, true], [true, true]] {
                for stored in [true, false] {
                    if !tally.goes_on(plan) {
                        return tally;
                    }
                    let loss = Loss {
                        units,
                        call,
                        stored,
                    };
                    let end = run(library, &wishes, Some(loss))
                        .and_then(|hosts| goal.reached(library, &hosts.logs));
                    tally.count(|| format!("run {round}, {loss:?}"), end);
                }
            }
        }
    }
    tally
}

/// A longer file is stored over a shorter one, and power is lost after every
/// byte: the card has the old state, the new one, or a file that is refused.
pub fn half_stored(library: &dyn Library, plan: &Plan) -> Tally {
    let mut tally = Tally::default();
    let full = log_of(512, 8, 6, &Mix::BENCH, plan.seed);
    let sizes: &[(usize, usize)] = plan.count(
        &[(14, 20)],
        &[(0, 1), (6, 7), (14, 20), (20, 20), (60, 90), (500, 512)],
    );
    for (old, new) in sizes {
        let other = apart(2, *old, &Mix::CONFLICTS, plan.seed).swap_remove(0);
        let olds = [first(&full, *old), other];
        let new = first(&full, *new);
        for old in &olds {
            let (before, after) = (file_of(old), file_of(&new));
            for bytes in 0..=after.len() {
                if !tally.goes_on(plan) {
                    return tally;
                }
                let mut card = after[..bytes].to_vec();
                card.extend(before.get(bytes..).unwrap_or_default());
                let end = stored_in_part(library, &card, [old, &new]);
                tally.count(|| format!("{bytes} of {} bytes", after.len()), end);
            }
        }
    }
    tally
}

fn stored_in_part(library: &dyn Library, card: &[u8], states: [&Vec<u8>; 2]) -> End {
    let lent: Vec<u8> = (0..LOG).map(|i| (3 + 31 * i) as u8).collect();
    let mut log = lent.clone();
    match library.read_file(&mut log, &mut EMPTY_BASE.clone(), card) {
        Ok(_) if states.contains(&&log) => Ok(false),
        Ok(_) => incorrect("a log that never was"),
        Err(_) if log == lent => Ok(false),
        Err(_) => incorrect("refused, but the log changed"),
    }
}
