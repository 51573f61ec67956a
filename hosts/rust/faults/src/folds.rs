//! Units that fold: meetings that are cut, beside twins that never fold; and bases
//! with a changed byte.

use crate::study::{End, Plan, Tally, Wrong, incorrect, manual};
use crate::world::ARCHIVE;
use library::{Library, Plain};
use plain::{BLOCK, EMPTY_BASE, LOG, TREE};
use workload::{Chance, Mix, Units, wish};

/// Units as the library keeps them, and their twins, which never fold.
struct World<'a> {
    library: &'a dyn Library,
    logs: Vec<Vec<u8>>,
    bases: Vec<Vec<u8>>,
    twins: Units,
    folded: usize,
}

impl World<'_> {
    fn new(library: &dyn Library, units: usize) -> World<'_> {
        World {
            library,
            logs: vec![vec![0; LOG]; units],
            bases: vec![EMPTY_BASE.to_vec(); units],
            twins: Units::empty(units, ARCHIVE),
            folded: 0,
        }
    }

    /// An act, which the twin answers alike.
    fn act(&mut self, chance: &mut Chance, mix: &Mix, unit: usize) -> End {
        let wish = wish(chance, mix, unit as u8, &self.twins.tree(unit));
        let (log, base) = (&mut self.logs[unit], &self.bases[unit]);
        let acted = self.library.act(log, base, &mut [], ARCHIVE, unit as u32, &wish);
        let twin = self.twins.act_on(unit, &wish);
        let numbers = (acted.err().map(|no| no.number), twin.err().map(|no| no.number));
        match numbers.0 == numbers.1 {
            true => Ok(false),
            false => incorrect(format!("an act answers {numbers:?}")),
        }
    }

    /// Passes at most so many blocks, at the twins too.
    fn pass(&mut self, from: usize, to: usize, most: usize) -> Result<(), Wrong> {
        let library = self.library;
        for _ in 0..most {
            let asked = match library.vector(&self.logs[to], &self.bases[to]) {
                Ok(asked) => asked,
                Err(refusal) => return manual(format!("no vector: {refusal:?}")),
            };
            let mut block = [0xa5; BLOCK];
            let (log, base) = (&self.logs[from], &self.bases[from]);
            let given = library.hand_out(log, base, ARCHIVE, from as u32, &asked, &mut block);
            if let Err(refusal) = given {
                return manual(format!("no hand-out: {refusal:?}"));
            }
            if block[9] == 0 {
                break;
            }
            let (log, base) = (&mut self.logs[to], &self.bases[to]);
            let taken = library.take(log, base, &mut [], ARCHIVE, to as u32, &block);
            if let Err(refusal) = taken {
                return manual(format!("a good block refused: {refusal:?}"));
            }
            let (log, base) = (&mut self.twins.logs[to], &self.twins.bases[to]);
            if plain::take(log, base, &mut [], ARCHIVE, to as u8, &block).is_err() {
                return incorrect("a block that the twin refuses");
            }
        }
        Ok(())
    }

    /// Folds with all units listed.
    fn fold(&mut self, unit: usize) -> End {
        let list = (1u16 << self.logs.len()).wrapping_sub(1) as u8;
        let (log, base) = (&mut self.logs[unit], &mut self.bases[unit]);
        match self.library.fold(log, base, ARCHIVE, unit as u32, list) {
            Ok(count) => self.folded += usize::from(count),
            Err(refusal) => return manual(format!("no fold: {refusal:?}")),
        }
        self.shows_as_twin(unit)
    }

    fn shows_as_twin(&self, unit: usize) -> End {
        let mut tree = vec![0xa5; TREE];
        match self.library.show(&self.logs[unit], &self.bases[unit], &mut tree) {
            Ok(()) if tree[..] == self.twins.tree(unit)[..] => Ok(tree[2..4] != [0, 0]),
            Ok(()) => incorrect(format!("unit {unit} shows another tree than its twin")),
            Err(refusal) => manual(format!("no tree: {refusal:?}")),
        }
    }

    /// A life of so many calls; then all meet, and show the same.
    fn live(&mut self, chance: &mut Chance, mix: &Mix, calls: usize) -> End {
        let units = self.logs.len();
        for _ in 0..calls {
            let (unit, other) = (chance.below(units), chance.below(units));
            match chance.below(10) {
                0..5 => self.act(chance, mix, unit)?,
                5..8 => self.pass(unit, other, chance.below(20)).map(|()| false)?,
                _ => self.fold(unit)?,
            };
        }
        for _ in 0..2 {
            for unit in 0..units {
                self.pass(unit, (unit + 1) % units, 200)?;
            }
        }
        let mut asides = false;
        for unit in 0..units {
            asides = self.shows_as_twin(unit)?;
            if self.twins.logs[unit] != self.twins.logs[0] {
                return manual(format!("unit {unit} stays behind"));
            }
        }
        Ok(asides)
    }
}

const MIXES: [Mix; 4] = [Mix::BENCH, Mix::CONFLICTS, Mix::CASES, Mix::MOVES];

/// Lives of units that fold, with meetings that break off.
pub fn lives(library: &dyn Library, plan: &Plan) -> Tally {
    let mut tally = Tally::default();
    let mut folded = 0;
    for round in 0..plan.count(30, 4000) {
        if !tally.goes_on(plan) {
            break;
        }
        let mut chance = Chance::new(7000 * plan.seed + round);
        let mut world = World::new(library, 2 + chance.below(3));
        let mix = MIXES[round as usize % 4];
        let end = world.live(&mut chance, &mix, 200);
        folded += world.folded;
        tally.count(|| format!("life {round}"), end);
    }
    if folded == 0 {
        tally.count(|| "all lives".to_string(), incorrect("nothing was folded"));
    }
    tally
}

/// Bases with a changed byte: the library says what the plain implementation says,
/// and a refused call leaves all bytes.
pub fn changed(library: &dyn Library, plan: &Plan) -> Tally {
    let mut tally = Tally::default();
    for round in 0..plan.count(2, 40) {
        let mut chance = Chance::new(9000 * plan.seed + round);
        let mut world = World::new(library, 3);
        if world.live(&mut chance, &MIXES[round as usize % 4], 160).is_err() {
            tally.count(|| format!("base {round}"), incorrect("no life"));
            continue;
        }
        let (log, base) = (&world.logs[0], &world.bases[0]);
        let entries = 24 + 72 * (usize::from(base[2]) + 1);
        let asides = 36_888 + 12 * (usize::from(base[4]) + 1);
        for place in (0..entries).chain(36_888..asides) {
            if !tally.goes_on(plan) {
                return tally;
            }
            for byte in [0, 1, 2, 7, 8, 255, base[place] ^ 1, base[place].wrapping_add(1)] {
                let mut changed = base.clone();
                changed[place] = byte;
                let end = as_plain(library, log, &changed);
                tally.count(|| format!("base {round}, byte {place} is {byte}"), end);
            }
        }
    }
    tally
}

fn as_plain(library: &dyn Library, log: &[u8], base: &[u8]) -> End {
    let fold = |library: &dyn Library| {
        let (mut log, mut base) = (log.to_vec(), base.to_vec());
        let number = library.fold(&mut log, &mut base, ARCHIVE, 0, 255);
        (number, log, base)
    };
    let (ours, plain) = (fold(library), fold(&Plain));
    if ours != plain {
        return incorrect(format!("fold: {:?}, plain {:?}", ours.0, plain.0));
    }
    if ours.0.is_err() && (ours.1 != log || ours.2 != base) {
        return incorrect("refused, but log or base changed");
    }
    Ok(false)
}
