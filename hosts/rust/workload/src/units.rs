//! Units that act and meet.

use crate::{Chance, Mix, wish};
use plain::{Answer, BLOCK, EMPTY_BASE, LOG, RECORD, TREE};

/// The logs and bases of some units.
pub struct Units {
    pub archive: u32,
    pub logs: Vec<Vec<u8>>,
    pub bases: Vec<Vec<u8>>,
}

/// The record counts of a log behind an empty base.
pub fn vector_of(log: &[u8]) -> [u16; 8] {
    let mut counts = [0; 8];
    for record in log
        .chunks(RECORD)
        .take_while(|record| record[2..4] != [0, 0])
    {
        counts[record[0] as usize & 7] += 1;
    }
    counts
}

impl Units {
    pub fn empty(count: usize, archive: u32) -> Units {
        Units {
            archive,
            logs: vec![vec![0; LOG]; count],
            bases: vec![EMPTY_BASE.to_vec(); count],
        }
    }

    /// The held vector of a unit.
    pub fn vector(&self, unit: usize) -> [u16; 8] {
        plain::vector(&self.logs[unit], &self.bases[unit]).expect("a sound state")
    }

    /// The tree table of a unit.
    pub fn tree(&self, unit: usize) -> Box<[u8; TREE]> {
        let mut tree = Box::new([0; TREE]);
        plain::show(&self.logs[unit], &self.bases[unit], &mut *tree).expect("a sound state");
        tree
    }

    /// One wish of a unit; says whether it was accepted.
    pub fn act(&mut self, chance: &mut Chance, mix: &Mix, unit: usize) -> bool {
        let wish = wish(chance, mix, unit as u8, &self.tree(unit));
        self.act_on(unit, &wish).is_ok()
    }

    /// An act of a unit.
    pub fn act_on(&mut self, unit: usize, wish: &[u8; 80]) -> Answer<()> {
        let (log, base) = (&mut self.logs[unit], &self.bases[unit]);
        plain::act(log, base, &mut [], self.archive, unit as u8, wish)
    }

    /// A fold of a unit.
    pub fn fold(&mut self, unit: usize, list: u8) -> Answer<u16> {
        let (log, base) = (&mut self.logs[unit], &mut self.bases[unit]);
        plain::fold(log, base, self.archive, unit as u8, list)
    }

    /// Passes all that the other lacks. It ends early where the giver has folded
    /// what the other lacks.
    pub fn pass(&mut self, from: usize, to: usize) {
        let mut block = [0; BLOCK];
        loop {
            let asked = self.vector(to);
            let (log, base) = (&self.logs[from], &self.bases[from]);
            let given = plain::hand_out(log, base, self.archive, from as u8, &asked, &mut block);
            match given {
                Err(refusal) if refusal.number == 27 => return,
                given => given.expect("a sound state"),
            }
            if block[9] == 0 {
                return;
            }
            let (log, base) = (&mut self.logs[to], &self.bases[to]);
            plain::take(log, base, &mut [], self.archive, to as u8, &block)
                .expect("a block of one life");
        }
    }
}

/// A log of so many records, made by so many units that meet about once in
/// `apart` acts.
pub fn log_of(records: usize, units: usize, apart: usize, mix: &Mix, seed: u64) -> Vec<u8> {
    let mut chance = Chance::new(seed);
    let mut life = Units::empty(units, 7);
    let mut made = 0;
    while made < records {
        let unit = chance.below(units);
        made += life.act(&mut chance, mix, unit) as usize;
        if chance.one_in(apart) {
            let other = chance.below(units);
            life.pass(unit, other);
        }
    }
    for unit in 1..units {
        life.pass(unit, 0);
    }
    life.logs.swap_remove(0)
}
