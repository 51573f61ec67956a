//! Random call lists over eight units: the static library and the plain
//! implementation, call by call and byte by byte.

use crate::study::{End, Plan, Tally, incorrect};
use library::{LISTING, Library, Plain, folder_of};
use plain::{BASE, BLOCK, EMPTY_BASE, FILE, INDEX, LOG, RECORD, SAB2_FILE, TREE};
use std::fmt::Debug;
use workload::{Chance, Mix, log_of, wish};

const ARCHIVE: u32 = 0x8000_0011;

/// Lists of calls; an experiment is a call.
pub fn all(library: &dyn Library, plan: &Plan) -> Tally {
    let mut tally = Tally::default();
    for list in 0..plan.count(40, 2000) {
        let mut calls = Calls::new(library, 10_000 * plan.seed + list);
        for call in 0..plan.count(150, 400) {
            if !tally.goes_on(plan) {
                return tally;
            }
            let end = calls.one();
            tally.count(|| format!("list {list}, call {call}"), end);
        }
    }
    tally
}

struct Calls<'a> {
    library: &'a dyn Library,
    chance: Chance,
    mix: Mix,
    logs: Vec<Vec<u8>>,
    /// The base of each log.
    bases: Vec<Vec<u8>>,
    /// The index of each log.
    indexes: Vec<Vec<u8>>,
    /// Blocks and files that were written.
    blocks: Vec<Vec<u8>>,
    files: Vec<Vec<u8>>,
}

/// What both implementations gave for one call.
struct Both<T> {
    answers: [T; 2],
    /// The lent bytes afterwards.
    lent: [Vec<Vec<u8>>; 2],
}

impl<T: PartialEq + Debug> Both<T> {
    /// Runs a call on both, each with copies of the lent bytes.
    fn run(
        ours: &dyn Library,
        lent: &[&[u8]],
        call: impl Fn(&dyn Library, &mut [Vec<u8>]) -> T,
    ) -> Both<T> {
        let mut copies =
            [0, 1].map(|_| lent.iter().map(|bytes| bytes.to_vec()).collect::<Vec<_>>());
        let [first, second] = &mut copies;
        Both {
            answers: [call(ours, first), call(&Plain, second)],
            lent: copies,
        }
    }

    fn compared(&self, name: &str) -> End {
        let [ours, plain] = &self.answers;
        if ours != plain {
            return incorrect(format!("{name}: {ours:?}, plain {plain:?}"));
        }
        if self.lent[0] != self.lent[1] {
            return incorrect(format!("{name}: {ours:?}, but other bytes"));
        }
        Ok(false)
    }
}

impl Calls<'_> {
    fn new(library: &dyn Library, seed: u64) -> Calls<'_> {
        let mut chance = Chance::new(seed);
        let mix = *chance.pick(&[Mix::BENCH, Mix::CONFLICTS, Mix::CASES, Mix::MOVES]);
        let held = *chance.pick(&[0, 0, 12, 60, 505, 512]);
        let log = log_of(held, 1 + chance.below(8), 4, &mix, seed);
        let mut index = vec![0; INDEX];
        plain::index(&log, &EMPTY_BASE, &mut index).expect("a sound log");
        Calls {
            library,
            chance,
            mix,
            logs: vec![log; 8],
            bases: vec![EMPTY_BASE.to_vec(); 8],
            indexes: vec![index; 8],
            blocks: Vec::new(),
            files: Vec::new(),
        }
    }

    /// One call drawn by chance.
    fn one(&mut self) -> End {
        let slot = self.chance.below(8);
        let unit = if self.chance.one_in(40) {
            self.odd_unit(slot)
        } else {
            slot as u32
        };
        match self.chance.below(100) {
            0 => self.start(slot, unit),
            1..36 => self.act(slot, unit),
            36..40 => self.fold(slot, unit),
            40..60 => self.hand_out(slot, unit),
            60..84 => self.take(slot, unit),
            84..86 => self.write_file(slot, unit),
            86..88 => self.write_sab2(slot, unit),
            88..91 => self.read_file(),
            91..93 => self.show(slot),
            93 => self.index(slot),
            94 => self.find(slot),
            95 => self.vector(slot),
            96 => self.listing(),
            97 => self.merge(),
            98 => self.convert(),
            _ => self.compare(),
        }
    }

    /// Another unit, or none: also one whose low byte alone would be a unit.
    fn odd_unit(&mut self, slot: usize) -> u32 {
        let any = self.chance.number() as u32;
        *self
            .chance
            .pick(&[any % 16, any % 256, any << 8 | slot as u32, any])
    }

    fn archive(&mut self) -> u32 {
        if self.chance.one_in(40) {
            ARCHIVE + 1
        } else {
            ARCHIVE
        }
    }

    /// The slot's log, or seldom one that is not sound or not as long.
    fn log(&mut self, slot: usize) -> (Vec<u8>, bool) {
        let mut log = self.logs[slot].clone();
        if !self.chance.one_in(30) {
            return (log, true);
        }
        let used = used(&log);
        match self.chance.below(4) {
            0 => log.truncate(self.chance.below(LOG)),
            1 => log.push(0),
            2 => log[..RECORD * used].rotate_left(RECORD.min(RECORD * used)),
            _ => {
                let at = self.chance.below(RECORD * (used + 1)).min(LOG - 1);
                log[at] ^= 1 << self.chance.below(8);
            }
        }
        (log, false)
    }

    /// The slot's base, or seldom one with changed bytes, that of another slot, or
    /// one not as long.
    fn base(&mut self, slot: usize) -> (Vec<u8>, bool) {
        let mut base = self.bases[slot].clone();
        if !self.chance.one_in(30) {
            return (base, true);
        }
        match self.chance.below(6) {
            0 => base.truncate(self.chance.below(BASE)),
            1 => base.push(0),
            2 => base = self.bases[self.chance.below(8)].clone(),
            3 => base[self.chance.below(24)] = self.odd_byte(),
            4 => {
                let at = 36_888 + self.chance.below(12 * (usize::from(base[4]) + 1));
                base[at] = self.odd_byte();
            }
            _ => {
                let at = 24 + self.chance.below(72 * (usize::from(base[2]) + 1));
                base[at] = self.odd_byte();
            }
        }
        (base, false)
    }

    /// The vector that a slot holds.
    fn held(&self, slot: usize) -> [u16; 8] {
        plain::vector(&self.logs[slot], &self.bases[slot]).unwrap_or_default()
    }

    /// A buffer lent for writing, seldom of another length.
    fn lent(&mut self, length: usize) -> Vec<u8> {
        let length = match self.chance.below(60) {
            0 => length - 1,
            1 => length + 1,
            2 => 0,
            _ => length,
        };
        let seed = self.chance.number() as usize;
        (0..length)
            .map(|i| seed.wrapping_add(31 * i) as u8)
            .collect()
    }

    /// The index that goes with a log: the slot's own; seldom none, any bytes or
    /// those of another length.
    fn index_for(&mut self, slot: usize) -> Vec<u8> {
        match self.chance.below(40) {
            0..6 => Vec::new(),
            6 => self.lent(INDEX),
            _ => self.indexes[slot].clone(),
        }
    }

    /// Keeps what the call left in the slot's log, base and index. An index that was
    /// right must be the one made afresh; where another was lent, it is made.
    fn keep<T: PartialEq + Debug>(
        &mut self,
        slot: usize,
        own: bool,
        lent: &[u8],
        both: &mut Both<T>,
    ) -> End {
        if !own {
            return Ok(false);
        }
        let right = lent == self.indexes[slot];
        let [log, base, index] = std::mem::take(&mut both.lent[0])
            .try_into()
            .expect("a log, a base and an index");
        (self.logs[slot], self.bases[slot]) = (log, base);
        let (log, base) = (&self.logs[slot], &self.bases[slot]);
        let made = self.library.index(log, base, &mut self.indexes[slot]);
        if made != Ok(()) {
            return incorrect(format!("no index: {made:?}"));
        }
        if right && index != self.indexes[slot] {
            return incorrect("the index is not the one made afresh");
        }
        Ok(false)
    }

    /// Makes the index of a log.
    fn index(&mut self, slot: usize) -> End {
        let ((log, _), (base, _)) = (self.log(slot), self.base(slot));
        let index = self.lent(INDEX);
        let both = Both::run(self.library, &[&index, &log, &base], |library, lent| {
            let [index, log, base] = lent else { unreachable!() };
            library.index(log, base, index)
        });
        both.compared("index")
    }

    /// Looks up and lists a folder of a row, or any.
    fn find(&mut self, slot: usize) -> End {
        let mut index = self.index_for(slot);
        if index.is_empty() {
            index = self.lent(INDEX);
        }
        let at = 4 + 40 * self.chance.below(1024);
        let row = index.get(at..at + 40).unwrap_or(&[0; 40]);
        let (mut folder, mut label) = (folder_of(row), row[4..36].to_vec());
        match self.chance.below(6) {
            0 => folder.0 = self.odd_unit(slot),
            1 => label[self.chance.below(32)] = self.odd_byte(),
            2 => folder.1 = self.chance.number() as u32 >> self.chance.below(32),
            3 => label = self.lent(32),
            _ => (),
        }
        let both = Both::run(self.library, &[&index, &label], |library, lent| {
            let [index, label] = lent else { unreachable!() };
            (library.find(index, folder, label), library.list(index, folder))
        });
        both.compared("find and list")
    }

    fn start(&mut self, slot: usize, unit: u32) -> End {
        let archive = self.archive();
        let ((log, own), (base, based)) = (self.log(slot), self.base(slot));
        let index = self.index_for(slot);
        let mut both = Both::run(self.library, &[&log, &base, &index], |library, lent| {
            let [log, base, index] = lent else { unreachable!() };
            library.start(log, base, index, archive, unit)
        });
        both.compared("start")?;
        self.keep(slot, own && based, &index, &mut both)
    }

    fn act(&mut self, slot: usize, unit: u32) -> End {
        let archive = self.archive();
        let mut tree = [0; TREE];
        let mut wish = match plain::show(&self.logs[slot], &self.bases[slot], &mut tree) {
            Ok(()) => wish(&mut self.chance, &self.mix, unit as u8 & 7, &tree).to_vec(),
            Err(_) => return incorrect("a state that is not sound"),
        };
        let ((log, own), (base, based)) = (self.log(slot), self.base(slot));
        let index = self.index_for(slot);
        if self.chance.one_in(4) {
            let at = self.chance.below(RECORD);
            wish[at] = self.odd_byte();
        }
        if self.chance.one_in(40) {
            wish.truncate(self.chance.below(RECORD));
        }
        let mut both = Both::run(self.library, &[&log, &base, &index], |library, lent| {
            let [log, base, index] = lent else { unreachable!() };
            library.act(log, base, index, archive, unit, &wish)
        });
        both.compared("act")?;
        self.keep(slot, own && based, &index, &mut both)
    }

    /// Folds by a list that mostly names every unit with a record.
    fn fold(&mut self, slot: usize, unit: u32) -> End {
        let archive = self.archive();
        let held = self.held(slot);
        let mut list = self.chance.number() as u8 & self.chance.number() as u8;
        if !self.chance.one_in(8) {
            list |= 1 << slot;
            (0..8).for_each(|unit| list |= u8::from(held[unit] > 0) << unit);
        }
        let ((log, own), (base, based)) = (self.log(slot), self.base(slot));
        let index = self.indexes[slot].clone();
        let mut both = Both::run(self.library, &[&log, &base, &index], |library, lent| {
            let [log, base, _] = lent else { unreachable!() };
            library.fold(log, base, archive, unit, list)
        });
        both.compared("fold")?;
        self.keep(slot, own && based, &index, &mut both)
    }

    fn odd_byte(&mut self) -> u8 {
        let any = self.chance.number() as u8;
        *self.chance.pick(&[
            0, 1, 2, 3, 5, 6, 7, 8, 0x1f, 0x20, 0x2f, 0x41, 0x7e, 0x7f, 0xff, any,
        ])
    }

    fn hand_out(&mut self, slot: usize, unit: u32) -> End {
        let archive = self.archive();
        let other = self.chance.below(8);
        let mut asked = self.held(other);
        if self.chance.one_in(4) {
            asked[self.chance.below(8)] = *self.chance.pick(&[0, 1, 5, 64, 513, 65_535]);
        }
        let ((log, _), (base, _)) = (self.log(slot), self.base(slot));
        let block = self.lent(BLOCK);
        let both = Both::run(self.library, &[&block, &log, &base], |library, lent| {
            let [block, log, base] = lent else { unreachable!() };
            library.hand_out(log, base, archive, unit, &asked, block)
        });
        if both.answers[0].is_ok() {
            let block = &both.lent[0][0];
            let held = plain::vector(&log, &base).unwrap_or_default();
            let (count, lacks) = (block[9], self.library.compare(&asked, &held));
            if u32::from(count) != lacks.first_lacks.min(6) {
                return incorrect(format!("hand out: {count} records, {lacks:?}"));
            }
            self.blocks.push(block.clone());
        }
        both.compared("hand out")
    }

    /// A block that was written, mostly a late one and mostly whole.
    fn block(&mut self) -> Vec<u8> {
        let Some(last) = self.blocks.len().checked_sub(1) else {
            return self.lent(BLOCK);
        };
        let back = if self.chance.one_in(3) {
            last
        } else {
            last.min(4)
        };
        let mut block = self.blocks[last - self.chance.below(back + 1)].clone();
        if self.chance.one_in(2) {
            self.harm(&mut block);
        }
        if self.chance.one_in(40) {
            block.truncate(self.chance.below(BLOCK));
        }
        block
    }

    /// Changes a block, mostly with sums put right again.
    fn harm(&mut self, block: &mut [u8]) {
        for _ in 0..=self.chance.below(2) {
            let count = block[9].min(6) as usize;
            match self.chance.below(8) {
                0 => block[self.chance.below(28)] = self.odd_byte(),
                1 if count > 1 => {
                    // One record in the place of another.
                    let (from, to) = (self.chance.below(count), self.chance.below(count));
                    block.copy_within(28 + 80 * from..108 + 80 * from, 28 + 80 * to);
                }
                2 => block[self.chance.below(BLOCK)] ^= 1 << self.chance.below(8),
                3 if count > 1 => {
                    // Two records change places.
                    let (one, other) = (self.chance.below(count), self.chance.below(count));
                    for i in 28..108 {
                        block.swap(i + 80 * one, i + 80 * other);
                    }
                }
                _ if count > 0 => {
                    let record = 28 + 80 * self.chance.below(count);
                    let at = if self.chance.one_in(2) {
                        self.chance.below(28)
                    } else {
                        self.chance.below(80)
                    };
                    block[record + at] = self.odd_byte();
                }
                _ => block[9] = self.odd_byte(),
            }
        }
        if !self.chance.one_in(5) {
            seal(block);
        }
    }

    fn take(&mut self, slot: usize, unit: u32) -> End {
        let archive = self.archive();
        let block = self.block();
        let ((log, own), (base, based)) = (self.log(slot), self.base(slot));
        let index = self.index_for(slot);
        let mut both = Both::run(self.library, &[&log, &base, &index], |library, lent| {
            let [log, base, index] = lent else { unreachable!() };
            library.take(log, base, index, archive, unit, &block)
        });
        both.compared("take")?;
        self.keep(slot, own && based, &index, &mut both)
    }

    fn write_file(&mut self, slot: usize, unit: u32) -> End {
        let archive = self.archive();
        let ((log, _), (base, _)) = (self.log(slot), self.base(slot));
        let file = self.lent(FILE);
        let both = Both::run(self.library, &[&file, &log, &base], |library, lent| {
            let [file, log, base] = lent else { unreachable!() };
            library.write_file(log, base, archive, unit, file)
        });
        if let Ok(blocks) = both.answers[0] {
            let file = both.lent[0][0][..BLOCK * blocks as usize].to_vec();
            self.blocks.extend(file.chunks(BLOCK).map(<[u8]>::to_vec));
            self.files.push(file);
        }
        both.compared("write a file")
    }

    fn write_sab2(&mut self, slot: usize, unit: u32) -> End {
        let archive = self.archive();
        let ((log, _), (base, _)) = (self.log(slot), self.base(slot));
        let file = self.lent(SAB2_FILE);
        let both = Both::run(self.library, &[&file, &log, &base], |library, lent| {
            let [file, log, base] = lent else { unreachable!() };
            library.write_sab2(log, base, archive, unit, file)
        });
        if let Ok(blocks) = both.answers[0] {
            let file = both.lent[0][0][..BLOCK * blocks as usize].to_vec();
            self.files.push(file);
        }
        both.compared("write an SAB2 file")
    }

    /// A file, mostly unharmed, as SAB2 or SAB1.
    fn convert(&mut self) -> End {
        let file = match self.files.is_empty() || self.chance.one_in(4) {
            true => self.file(),
            false => self.chance.pick(&self.files).clone(),
        };
        let (sab2, sab1) = (self.lent(SAB2_FILE), self.lent(FILE));
        Both::run(self.library, &[&sab2], |library, lent| {
            library.to_sab2(&file, &mut lent[0])
        })
        .compared("to SAB2")?;
        Both::run(self.library, &[&sab1], |library, lent| {
            library.to_sab1(&file, &mut lent[0])
        })
        .compared("to SAB1")
    }

    /// A file that was written, mostly harmed.
    fn file(&mut self) -> Vec<u8> {
        if self.files.is_empty() {
            return self.lent(2 * BLOCK);
        }
        let mut file = self.chance.pick(&self.files).clone();
        match self.chance.below(8) {
            0 => (),
            1 => file.truncate(self.chance.below(file.len())),
            2 => file.truncate(BLOCK * (1 + self.chance.below(file.len() / BLOCK))),
            3 => {
                let other = self.block();
                file.extend(other);
            }
            _ => {
                let at = BLOCK * self.chance.below(file.len() / BLOCK);
                self.harm(&mut file[at..at + BLOCK]);
            }
        }
        file
    }

    fn read_file(&mut self) -> End {
        let file = self.file();
        let (log, base) = (self.lent(LOG), self.lent(BASE));
        Both::run(self.library, &[&log, &base], |library, lent| {
            let [log, base] = lent else { unreachable!() };
            library.read_file(log, base, &file)
        })
        .compared("read a file")
    }

    /// Two files that were written, mostly unharmed, so that they often go
    /// together.
    fn merge(&mut self) -> End {
        let files = [0, 1].map(|_| {
            if self.files.is_empty() || self.chance.one_in(4) {
                self.file()
            } else {
                self.chance.pick(&self.files).clone()
            }
        });
        let (log, file) = (self.lent(LOG), self.lent(FILE));
        Both::run(self.library, &[&log, &file], |library, lent| {
            let [log, file] = lent else { unreachable!() };
            library.merge(&files[0], &files[1], log, file)
        })
        .compared("merge")
    }

    fn show(&mut self, slot: usize) -> End {
        let ((log, _), (base, _)) = (self.log(slot), self.base(slot));
        let tree = self.lent(TREE);
        Both::run(self.library, &[&tree, &log, &base], |library, lent| {
            let [tree, log, base] = lent else { unreachable!() };
            library.show(log, base, tree)
        })
        .compared("show")
    }

    fn vector(&mut self, slot: usize) -> End {
        let ((log, _), (base, _)) = (self.log(slot), self.base(slot));
        Both::run(self.library, &[&log, &base], |library, lent| {
            library.vector(&lent[0], &lent[1])
        })
        .compared("vector")
    }

    fn listing(&mut self) -> End {
        let file = self.file();
        let out = vec![0xa5; LISTING];
        Both::run(self.library, &[&out], |library, lent| {
            library.listing_into(&file, &mut lent[0])
        })
        .compared("listing")
    }

    /// Two vectors, of logs or with any count.
    fn compare(&mut self) -> End {
        let one = self.chance.below(8);
        let one = self.held(one);
        let other = self.chance.below(8);
        let mut other = self.held(other);
        if self.chance.one_in(2) {
            other[self.chance.below(8)] = self.chance.number() as u16;
        }
        Both::run(self.library, &[], |library, _| {
            library.compare(&one, &other)
        })
        .compared("compare")
    }
}

/// How many records a log has.
fn used(log: &[u8]) -> usize {
    let places = log.chunks(RECORD);
    places.take_while(|record| record[2..4] != [0, 0]).count()
}

/// Writes the sums of a block.
fn seal(block: &mut [u8]) {
    let Ok(whole) = <&[u8; BLOCK]>::try_from(&*block) else {
        return;
    };
    let (first, second) = plain::sums(whole);
    block[508..510].copy_from_slice(&first.to_le_bytes());
    block[510..].copy_from_slice(&second.to_le_bytes());
}
