//! Units, their logs and what passes between them.

use crate::study::{End, Wrong, incorrect, manual};
use library::Library;
use plain::{BLOCK, EMPTY_BASE, FILE, LOG, RECORD, TREE};
use workload::{Chance, Mix, Units, vector_of};

pub const ARCHIVE: u32 = 0x0102_0307;

pub type Block = [u8; BLOCK];

/// How many records a log holds.
pub fn held(log: &[u8]) -> usize {
    vector_of(log).iter().map(|count| *count as usize).sum()
}

/// The logs of units that acted and met by chance: so many records in all. The
/// units did not meet at the end.
pub fn apart(units: usize, records: usize, mix: &Mix, seed: u64) -> Vec<Vec<u8>> {
    let mut chance = Chance::new(seed);
    let mut life = Units::empty(units, ARCHIVE);
    let mut made = 0;
    while made < records {
        let unit = chance.below(units);
        made += life.act(&mut chance, mix, unit) as usize;
        if chance.one_in(8) && made < records / 2 {
            let other = chance.below(units);
            life.pass(unit, other);
        }
    }
    life.logs
}

/// The tree of a log.
pub fn tree_of(library: &dyn Library, log: &[u8]) -> Result<Vec<u8>, Wrong> {
    let mut tree = vec![0xa5; TREE];
    match library.show(log, &EMPTY_BASE, &mut tree) {
        Ok(()) => Ok(tree),
        Err(refusal) => manual(format!("no tree: {refusal:?}")),
    }
}

/// The block that a unit hands out to another log.
pub fn hand_out(
    library: &dyn Library,
    from: &[u8],
    unit: usize,
    to: &[u8],
) -> Result<Block, Wrong> {
    let mut block = [0xa5; BLOCK];
    match library.hand_out(from, &EMPTY_BASE, ARCHIVE, unit as u32, &vector_of(to), &mut block) {
        Ok(()) => Ok(block),
        Err(refusal) => manual(format!("no hand-out: {refusal:?}")),
    }
}

/// Takes a block that must be good.
pub fn take(library: &dyn Library, log: &mut [u8], unit: usize, block: &[u8]) -> Result<(), Wrong> {
    match library.take(log, &EMPTY_BASE, &mut [], ARCHIVE, unit as u32, block) {
        Ok(()) => Ok(()),
        Err(refusal) => manual(format!("a good block refused: {refusal:?}")),
    }
}

/// Passes all that the other lacks, at most so many blocks; how many were.
pub fn pass(
    library: &dyn Library,
    logs: &mut [Vec<u8>],
    from: usize,
    to: usize,
    most: usize,
) -> Result<usize, Wrong> {
    for passed in 0..most {
        let block = hand_out(library, &logs[from], from, &logs[to])?;
        if block[9] == 0 {
            return Ok(passed);
        }
        take(library, &mut logs[to], to, &block)?;
    }
    Ok(most)
}

/// More blocks than any meeting needs.
pub const ALL: usize = 200;

/// Two units pass all both ways.
pub fn meet(
    library: &dyn Library,
    logs: &mut [Vec<u8>],
    one: usize,
    other: usize,
) -> Result<(), Wrong> {
    pass(library, logs, one, other, ALL)?;
    pass(library, logs, other, one, ALL)?;
    Ok(())
}

/// Where units end that hold the same records.
pub struct Goal {
    pub log: Vec<u8>,
    pub tree: Vec<u8>,
    asides: bool,
}

impl Goal {
    /// Where units end that get all records of some logs, by the plain
    /// implementation.
    pub fn of(logs: &[Vec<u8>]) -> Goal {
        let mut logs = logs.to_vec();
        for unit in 1..logs.len() {
            let Ok(_) = pass(&library::Plain, &mut logs, unit, 0, ALL) else {
                panic!("logs of one life");
            };
        }
        let log = logs.swap_remove(0);
        let mut tree = vec![0; TREE];
        plain::show(&log, &EMPTY_BASE, &mut tree).expect("a sound log");
        let asides = tree[2..4] != [0, 0];
        Goal { log, tree, asides }
    }

    /// All of the logs are there, and show the tree.
    pub fn reached(&self, library: &dyn Library, logs: &[Vec<u8>]) -> End {
        for (unit, log) in logs.iter().enumerate() {
            if *log == self.log {
                if tree_of(library, log)? != self.tree {
                    return incorrect(format!("unit {unit} shows another tree"));
                }
            } else if vector_of(log) == vector_of(&self.log) {
                return incorrect(format!("unit {unit} holds other bytes"));
            } else {
                return manual(format!("unit {unit} stays behind"));
            }
        }
        Ok(self.asides)
    }
}

/// The file of a log.
pub fn file_of(log: &[u8]) -> Vec<u8> {
    let mut file = vec![0; FILE];
    let blocks = plain::write_file(log, &EMPTY_BASE, ARCHIVE, 3, &mut file).expect("a sound log");
    file.truncate(BLOCK * blocks as usize);
    file
}

/// The first records of a log.
pub fn first(log: &[u8], records: usize) -> Vec<u8> {
    let mut first = log[..RECORD * records].to_vec();
    first.resize(LOG, 0);
    first
}
