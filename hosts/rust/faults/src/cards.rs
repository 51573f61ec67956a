//! Two cards merged: whole ones, damaged ones, and one with a number used twice.

use crate::study::{End, Plan, Tally, incorrect, manual};
use crate::world::{ARCHIVE, Goal, apart, first, held};
use library::{Library, MergeRefusal, Refusal};
use plain::{BLOCK, EMPTY_BASE, FILE, LOG, RECORD};
use workload::{Chance, Mix, vector_of};

/// The card of a unit.
fn card(log: &[u8], unit: usize) -> Vec<u8> {
    let mut file = vec![0; FILE];
    let blocks = plain::write_file(log, &EMPTY_BASE, ARCHIVE, unit as u8, &mut file).expect("a sound log");
    file.truncate(BLOCK * blocks as usize);
    file
}

/// Memory that is lent, and what it held before.
struct Lent {
    log: Vec<u8>,
    file: Vec<u8>,
    before: [Vec<u8>; 2],
}

impl Lent {
    fn new() -> Lent {
        let pattern = |length: usize| (0..length).map(|i| (5 + 31 * i) as u8).collect();
        let before: [Vec<u8>; 2] = [pattern(LOG), pattern(FILE)];
        Lent {
            log: before[0].clone(),
            file: before[1].clone(),
            before,
        }
    }

    /// The merge must be refused so, and leave all bytes.
    fn refused(
        &mut self,
        library: &dyn Library,
        cards: [&[u8]; 2],
        number: u8,
        place: usize,
        file: u8,
    ) -> End {
        let answer = library.merge(cards[0], cards[1], &mut self.log, &mut self.file);
        let refusal = Refusal {
            number,
            place: place as u8,
        };
        let kept = self.log == self.before[0] && self.file == self.before[1];
        if !kept {
            *self = Lent::new();
        }
        if answer != Err(MergeRefusal { refusal, file }) {
            return incorrect(format!("{answer:?}, not {refusal:?} of file {file}"));
        }
        if !kept {
            return incorrect("refused, but lent bytes changed");
        }
        Ok(false)
    }

    /// The merge must give the log where two units end that meet.
    fn merged(&mut self, library: &dyn Library, cards: [&[u8]; 2], goal: &Goal) -> End {
        let answer = library.merge(cards[0], cards[1], &mut self.log, &mut self.file);
        let (log, file) = (self.log.clone(), self.file.clone());
        *self = Lent::new();
        let Ok(blocks) = answer else {
            return manual(format!("{answer:?}"));
        };
        let expected = card(&goal.log, cards[0][8] as usize);
        let (file, behind) = file.split_at(BLOCK * blocks as usize);
        if file != expected || behind.iter().any(|byte| *byte != 0) {
            return incorrect("the file is not that of all records");
        }
        goal.reached(library, &[log])
    }
}

/// Cards of units that worked apart, merged both ways round and each with itself.
pub fn whole(library: &dyn Library, plan: &Plan) -> Tally {
    let mut tally = Tally::default();
    let mut lent = Lent::new();
    for round in 0..plan.count(40, 2000) {
        if !tally.goes_on(plan) {
            return tally;
        }
        let records = [0, 1, 7, 40, 200, 500][round % 6];
        let logs = apart(2, records, &Mix::CONFLICTS, plan.seed + round as u64);
        let goal = Goal::of(&logs);
        let cards = [card(&logs[0], 0), card(&logs[1], 1)];
        for (one, other) in [(0, 1), (1, 0)] {
            let end = lent.merged(library, [&cards[one], &cards[other]], &goal);
            tally.count(|| format!("round {round}, first {one}"), end);
            let itself = Goal::of(&logs[one..one + 1]);
            let end = lent.merged(library, [&cards[one], &cards[one]], &itself);
            tally.count(|| format!("round {round}, {one} with itself"), end);
        }
    }
    tally
}

/// Every byte of either card changed: the card is named, and the block.
pub fn changed(library: &dyn Library, plan: &Plan) -> Tally {
    let mut tally = Tally::default();
    let mut lent = Lent::new();
    for round in 0..plan.count(1, 6) {
        let logs = apart(2, 9 + 4 * round, &Mix::CONFLICTS, plan.seed + round as u64);
        let good = [card(&logs[0], 0), card(&logs[1], 1)];
        for which in [0, 1] {
            let mut damaged = good.clone();
            for place in 0..good[which].len() {
                if !tally.goes_on(plan) {
                    return tally;
                }
                for change in [0x01, 0x80, 0xff] {
                    damaged[which][place] = good[which][place] ^ change;
                    let number = if place % BLOCK < 4 { 3 } else { 4 };
                    let cards = [&damaged[0][..], &damaged[1]];
                    let file = which as u8 + 1;
                    let end = lent.refused(library, cards, number, place / BLOCK, file);
                    tally.count(|| format!("card {file}, byte {place} by {change}"), end);
                }
                damaged[which][place] = good[which][place];
            }
        }
    }
    tally
}

/// A record of the second card has another day: a number used twice. It is told
/// at its block if the first card has the record too.
pub fn used_twice(library: &dyn Library, plan: &Plan) -> Tally {
    let mut tally = Tally::default();
    let mut lent = Lent::new();
    let mut chance = Chance::new(plan.seed);
    for round in 0..plan.count(400, 20_000) {
        if !tally.goes_on(plan) {
            return tally;
        }
        let records = 1 + chance.below(60);
        let logs = apart(2, records, &Mix::CONFLICTS, plan.seed + round as u64);
        let common = vector_of(&logs[0]);
        let mut other = logs[1].clone();
        let count = held(&other);
        if count == 0 {
            continue;
        }
        let at = chance.below(count);
        let record = &mut other[RECORD * at..RECORD * (at + 1)];
        record[31] = if record[31] == 1 { 2 } else { 1 };
        let number = u16::from_le_bytes([record[2], record[3]]);
        let is_common = number <= common[record[0] as usize & 7];
        let cards = [card(&logs[0], 0), card(&other, 1)];
        let cards = [&cards[0][..], &cards[1]];
        let end = if is_common {
            lent.refused(library, cards, 10, at / 6, 2)
        } else {
            lent.merged(library, cards, &Goal::of(&[logs[0].clone(), other.clone()]))
        };
        tally.count(|| format!("round {round}, record {at}"), end);
    }
    tally
}

/// Two cards with more than 512 records together: 11 at the block of the first
/// that is one too many.
pub fn too_many(library: &dyn Library, plan: &Plan) -> Tally {
    let mut tally = Tally::default();
    let mut lent = Lent::new();
    let mut chance = Chance::new(plan.seed);
    let own: [Vec<u8>; 2] = std::array::from_fn(|unit| {
        let mut units = workload::Units::empty(2, ARCHIVE);
        while held(&units.logs[unit]) < 400 {
            units.act(&mut chance, &Mix::BENCH, unit);
        }
        units.logs.swap_remove(unit)
    });
    for round in 0..plan.count(60, 3000) {
        if !tally.goes_on(plan) {
            return tally;
        }
        let counts = [200 + chance.below(201), 200 + chance.below(201)];
        let logs = [0, 1].map(|unit| first(&own[unit], counts[unit]));
        let cards = [card(&logs[0], 0), card(&logs[1], 1)];
        let cards = [&cards[0][..], &cards[1]];
        let end = if counts[0] + counts[1] <= 512 {
            lent.merged(library, cards, &Goal::of(&logs))
        } else {
            lent.refused(library, cards, 11, (512 - counts[0]) / 6, 2)
        };
        tally.count(|| format!("round {round}, {counts:?}"), end);
    }
    tally
}
