//! A unit's log.

use crate::{
    Answer, Base, Block, Condition, Identity, Index, OrderChecked, Record, Records, Refusal, Row,
    RowTaken, Tree, Trial, Unit, Units, Vector, Wish, file, raw, work,
};
use std::fmt;

/// The records that a unit holds, with its archive and its unit number, what its
/// folded records left, and its index if one is kept.
///
/// Only the library changes its bytes, so it is sound. The refusals 1, 19 and 21
/// do not come from the calls here unless the memory itself is at fault.
#[derive(Clone)]
pub struct Log {
    bytes: Box<[u8; raw::LOG]>,
    base: Base,
    index: Option<Index>,
    archive: u32,
    unit: Unit,
}

/// The same records and the same base of the same archive and unit, whether an
/// index is kept or not. Logs that differ in what is folded, or in their lists, are
/// compared by vector and tree.
impl PartialEq for Log {
    fn eq(&self, other: &Log) -> bool {
        let named = |log: &Log| (log.archive, log.unit);
        named(self) == named(other) && self.bytes == other.bytes && self.base == other.base
    }
}

impl Eq for Log {}

impl Log {
    /// The log of a new unit: no records. A unit that has made records before is
    /// not started but read from its file, or takes its own records back from a
    /// peer before it acts. Otherwise it uses numbers twice.
    pub fn start(archive: u32, unit: Unit) -> Log {
        let (mut bytes, mut base) = (boxed(), Base::zeros());
        let number = u32::from(unit.number());
        let started = raw::start(&mut *bytes, base.lent(), &mut [], archive, number);
        debug_assert_eq!(started, Ok(()), "a log, a base and a unit");
        Log {
            bytes,
            base,
            index: None,
            archive,
            unit,
        }
    }

    /// The log in the bytes that [`Log::as_bytes`] gave, with the base whose bytes
    /// [`Log::base`] had at the same moment. Refuses 1, 19.
    pub fn from_bytes(archive: u32, unit: Unit, bytes: &[u8], base: &[u8]) -> Answer<Log> {
        raw::vector(bytes, base)?;
        let mut log = Log::start(archive, unit);
        log.bytes.copy_from_slice(bytes);
        log.base.lent().copy_from_slice(base);
        Ok(log)
    }

    /// The log in a file of either [`Form`], of whichever archive and unit wrote it:
    /// compare [`Log::archive`] and [`Log::unit`] with the ones expected. Only the
    /// unit itself acts on its log; see [`Log::held_by`]. From SAB1 nothing is folded,
    /// and all eight units are listed; from SAB2 base and list are those of the file.
    /// Refuses 2 to 5, 7 to 9, 11, 20, 26, 31.
    pub fn read_file(file: &[u8]) -> Answer<Log> {
        let (mut bytes, mut base) = (boxed(), Base::zeros());
        let head = raw::read_file(&mut *bytes, base.lent(), file)?;
        Ok(Log {
            bytes,
            base,
            index: None,
            archive: head.archive,
            unit: Unit::try_from(u32::from(head.unit))?,
        })
    }

    /// The same records, held by another unit. A laptop with a unit number of its
    /// own, or a unit that is new to the archive, begins so with what is on a
    /// card.
    pub fn held_by(self, unit: Unit) -> Log {
        Log { unit, ..self }
    }

    /// The archive.
    pub const fn archive(&self) -> u32 {
        self.archive
    }

    /// The unit whose log it is.
    pub const fn unit(&self) -> Unit {
        self.unit
    }

    /// The bytes, as the library's calls are lent them.
    pub const fn as_bytes(&self) -> &[u8; raw::LOG] {
        &self.bytes
    }

    /// The listed units, and what the folded records left.
    pub const fn base(&self) -> &Base {
        &self.base
    }

    /// Keeps an index from now on: made afresh now, and right after every call on
    /// this log. An act puts its one change into it; a take makes it afresh.
    pub fn keep_index(&mut self) -> Answer<()> {
        self.index = Some(self.make_index()?);
        Ok(())
    }

    /// The index, if one is kept.
    pub const fn index(&self) -> Option<&Index> {
        self.index.as_ref()
    }

    /// An index of the log as it is now, made afresh.
    pub fn make_index(&self) -> Answer<Index> {
        Index::of(&*self.bytes, self.base.as_bytes())
    }

    fn unit_number(&self) -> u32 {
        u32::from(self.unit.number())
    }

    /// The bytes to be changed, those of the base, and those of the index; none if
    /// none is kept.
    fn lent(&mut self) -> (&mut [u8], &[u8], &mut [u8]) {
        let index = self.index.as_mut().map(Index::lent);
        let base = self.base.as_bytes();
        (&mut *self.bytes, base, index.unwrap_or_default())
    }

    /// Makes a record of the own unit, if it fits the tree; its identity. Refuses
    /// 26, 7, 24, 28, 11, 12 to 16, 18, 25.
    pub fn act(&mut self, wish: &Wish) -> Answer<Identity> {
        let (archive, unit) = (self.archive, self.unit_number());
        let wish = wish.to_bytes(self.unit);
        let (log, base, index) = self.lent();
        work::lent(|work| raw::act(log, base, index, archive, unit, &wish, work))?;
        let made = self.records().next_back();
        Ok(made.ok_or(Refusal::new(19))?.identity())
    }

    /// Lists the units of the archive, and folds the longest run of records, from
    /// the lowest rank on, that all of them have heard of: these leave the log, and
    /// what they come to stands in the base. How many were folded. The tree, the
    /// vector and the index stay as they are. Refuses 26.
    ///
    /// What another unit has heard is told by its last record in the log; a listed
    /// unit without one holds all back.
    ///
    /// ```
    /// use sab::{Date, Identity, Log, Refusal, Unit, Units, Wish, meet};
    /// # fn main() -> Result<(), sab::Refusal> {
    /// let day = Date::new(2025, 3, 3);
    /// let mut van = Log::start(7, Unit::ALL[0]);
    /// let mut bench = Log::start(7, Unit::ALL[1]);
    /// van.act(&Wish::make_folder(Identity::ROOT, "Bench", day)?)?;
    /// meet(&mut van, &mut bench);
    /// let both: Units = [van.unit(), bench.unit()].into_iter().collect();
    /// assert_eq!(van.fold(both)?, 0);     // the bench has told of nothing yet
    /// bench.act(&Wish::make_folder(Identity::ROOT, "Roof", day)?)?;
    /// meet(&mut van, &mut bench);
    /// let before = van.show()?;
    /// assert_eq!(van.fold(both)?, 2);
    /// assert_eq!(van.records().len(), 0);
    /// assert_eq!(van.vector()?.to_string(), "1 1 0 0 0 0 0 0");
    /// assert_eq!(van.show()?, before);
    /// assert_eq!(van.write_file(), Err(Refusal::new(29)));
    /// # Ok(())
    /// # }
    /// ```
    pub fn fold(&mut self, units: Units) -> Answer<u16> {
        let (archive, unit) = (self.archive, self.unit_number());
        let (log, base) = (&mut *self.bytes, self.base.lent());
        let list = u32::from(units.to_byte());
        work::lent(|work| raw::fold(log, base, archive, unit, list, work))
    }

    /// Whether the records may be replayed in another order: each named once, none
    /// before one that it has seen, and the same entries and asides at the end. The
    /// order by rank is always accepted. Refuses 29 if records are folded.
    ///
    /// ```
    /// use sab::{Condition, Date, Identity, Log, Mark, Unit, Wish, meet};
    /// # fn main() -> Result<(), sab::Refusal> {
    /// let day = Date::new(2025, 3, 3);
    /// let mut van = Log::start(7, Unit::ALL[0]);
    /// let mut bench = Log::start(7, Unit::ALL[1]);
    /// let first = van.act(&Wish::make_trace(Identity::ROOT, "Gain", day, Mark([1; 16]))?)?;
    /// let second = bench.act(&Wish::make_trace(Identity::ROOT, "Gain", day, Mark([2; 16]))?)?;
    /// meet(&mut van, &mut bench);
    /// assert_eq!(van.check_order(&[first, second])?.failed, None);
    /// // The other way round the other trace stands aside.
    /// let turned = van.check_order(&[second, first])?;
    /// assert_eq!(turned.failed, Some(Condition::Tree));
    /// let (ours, theirs) = turned.trees.expect("both were replayed");
    /// assert!(ours.entry(first).is_some() && theirs.entry(second).is_some());
    /// assert_eq!(van.check_order(&[first])?.failed, Some(Condition::Names));
    /// # Ok(())
    /// # }
    /// ```
    pub fn check_order(&self, order: &[Identity]) -> Answer<OrderChecked> {
        let list: Vec<u8> = order.iter().flat_map(|name| name.to_bytes()).collect();
        let (mut ours, mut theirs) = (vec![0; raw::TREE], vec![0; raw::TREE]);
        let base = self.base.as_bytes();
        let failed = raw::check_order(&*self.bytes, base, &list, &mut ours, &mut theirs)?;
        let failed = Condition::of(failed);
        let trees = match failed {
            Some(Condition::Names | Condition::Seen) => None,
            None | Some(Condition::Tree) => Some((Tree::new(ours), Tree::new(theirs))),
        };
        Ok(OrderChecked { failed, trees })
    }

    /// A block of the first six or fewer records, by rank, that the asked vector
    /// lacks. Refuses 27.
    pub fn hand_out(&self, asked: &Vector) -> Answer<Block> {
        let mut block = [0; raw::BLOCK];
        raw::hand_out(
            &*self.bytes,
            self.base.as_bytes(),
            self.archive,
            self.unit_number(),
            asked.counts(),
            &mut block,
        )?;
        Ok(Block::new(block))
    }

    /// Takes a block wholly or not at all. Refuses 2 to 11, 26, 27. For the blocks
    /// of a meeting there is [`Asking::take`](crate::Asking::take).
    pub fn take(&mut self, block: impl AsRef<[u8]>) -> Answer<()> {
        let (archive, unit) = (self.archive, self.unit_number());
        let (log, base, index) = self.lent();
        for_index(index, |index, work| {
            raw::take(log, base, index, archive, unit, block.as_ref(), work)
        })
    }

    /// All blocks of what the asked vector lacks, in one call. Refuses 27.
    pub fn hand_out_row(&self, asked: &Vector) -> Answer<Row> {
        let mut row = vec![0; raw::FILE];
        let blocks = raw::hand_out_row(
            &*self.bytes,
            self.base.as_bytes(),
            self.archive,
            self.unit_number(),
            asked.counts(),
            &mut row,
        )?;
        row.truncate(raw::BLOCK * usize::from(blocks));
        Ok(Row::new(row))
    }

    /// Takes the blocks of a row in turn, up to the first that is refused, in one
    /// call. Refuses 2; what stops the row, 3 to 11, 26 or 27, is part of the
    /// answer.
    pub fn take_row(&mut self, row: impl AsRef<[u8]>) -> Answer<RowTaken> {
        let (archive, unit) = (self.archive, self.unit_number());
        let (log, base, index) = self.lent();
        let row = for_index(index, |index, work| {
            raw::take_row(log, base, index, archive, unit, row.as_ref(), work)
        })?;
        Ok(RowTaken::of(row.taken, row.stopped))
    }

    /// What [`Log::take_row`] would do. The log stays as it is. Refuses 2.
    ///
    /// ```
    /// use sab::{Date, Identity, Log, Unit, Vector, Wish};
    /// # fn main() -> Result<(), sab::Refusal> {
    /// let day = Date::new(2025, 3, 3);
    /// let mut van = Log::start(7, Unit::ALL[0]);
    /// let mut bench = Log::start(7, Unit::ALL[1]);
    /// let made = van.act(&Wish::make_folder(Identity::ROOT, "Bench", day)?)?;
    /// bench.act(&Wish::make_folder(Identity::ROOT, "Bench", day)?)?;
    /// let row = van.hand_out_row(&bench.vector()?)?;
    /// let trial = bench.try_row(&row)?;
    /// assert_eq!((trial.row.taken, trial.row.stopped), (1, None));
    /// assert_eq!(trial.disputed, [made]);
    /// bench.take_row(&row)?;
    /// assert_eq!(bench, trial.log);
    /// # Ok(())
    /// # }
    /// ```
    pub fn try_row(&self, row: impl AsRef<[u8]>) -> Answer<Trial> {
        let mut copy = boxed();
        let mut tree = vec![0; raw::TREE];
        let mut report = [0; raw::REPORT];
        raw::try_row(
            &*self.bytes,
            self.base.as_bytes(),
            self.archive,
            self.unit_number(),
            row.as_ref(),
            &mut *copy,
            &mut tree,
            &mut report,
        )?;
        let mut log = Log {
            bytes: copy,
            base: self.base.clone(),
            index: None,
            ..*self
        };
        if self.index.is_some() {
            log.keep_index()?;
        }
        Ok(Trial::of(&report, log, Tree::new(tree)))
    }

    /// The whole log as an SAB1 file, 1 to 86 blocks. Its list is not written.
    /// Refuses 29 if records are folded.
    pub fn write_file(&self) -> Answer<Vec<u8>> {
        let (archive, unit) = (self.archive, self.unit_number());
        let base = self.base.as_bytes();
        file::lent(raw::FILE, |file| {
            raw::write_file(&*self.bytes, base, archive, unit, file)
        })
    }

    /// The log as an SAB2 file, 1 to 186 blocks, with its list and what its folded
    /// records left. It reads back as this log.
    ///
    /// ```
    /// use sab::{Date, Identity, Log, Unit, Units, Wish};
    /// # fn main() -> Result<(), sab::Refusal> {
    /// let mut office = Log::start(7, Unit::ALL[5]);
    /// let day = Date::new(2025, 3, 3);
    /// office.act(&Wish::make_folder(Identity::ROOT, "Bench", day)?)?;
    /// let alone: Units = [office.unit()].into_iter().collect();
    /// assert_eq!(office.fold(alone)?, 1);
    /// let card = office.write_sab2()?;
    /// assert_eq!(Log::read_file(&card)?, office);
    /// # Ok(())
    /// # }
    /// ```
    pub fn write_sab2(&self) -> Answer<Vec<u8>> {
        let (archive, unit) = (self.archive, self.unit_number());
        let base = self.base.as_bytes();
        file::lent(raw::SAB2, |file| {
            raw::write_sab2(&*self.bytes, base, archive, unit, file)
        })
    }

    /// The tree of the records held, with those that stand aside.
    pub fn show(&self) -> Answer<Tree> {
        Tree::of(&*self.bytes, self.base.as_bytes())
    }

    /// The listing of the log's file, as docs/FORMAT.md gives it; it is the same for
    /// both forms.
    pub fn listing(&self) -> Answer<String> {
        let (mut log, mut base, mut tree) = (boxed(), Base::zeros(), vec![0; raw::TREE]);
        let mut text = vec![0; raw::LISTING];
        let file = self.write_sab2()?;
        let listed = raw::listing(&file, &mut *log, base.lent(), &mut tree, &mut text)?;
        text.truncate(listed.length);
        match listed.refused {
            Some(refusal) => Err(refusal),
            None => String::from_utf8(text).map_err(|_| Refusal::new(19)),
        }
    }

    /// How many records of each unit are held, folded ones with them.
    pub fn vector(&self) -> Answer<Vector> {
        raw::vector(&*self.bytes, self.base.as_bytes()).map(Vector::from)
    }

    /// The records that are not folded, by rank.
    pub fn records(&self) -> Records<'_> {
        Records::of(&self.bytes)
    }

    /// The record of an identity, if it is held and not folded.
    pub fn record(&self, identity: Identity) -> Option<Record<'_>> {
        self.records().find(|record| record.identity() == identity)
    }
}

impl fmt::Debug for Log {
    fn fmt(&self, f: &mut fmt::Formatter<'_>) -> fmt::Result {
        f.debug_struct("Log")
            .field("archive", &self.archive)
            .field("unit", &self.unit)
            .field("records", &self.records().len())
            .field("folded", &self.base.vector().sum())
            .finish_non_exhaustive()
    }
}

/// Lends work memory with an index, and none without.
fn for_index<T>(index: &mut [u8], call: impl FnOnce(&mut [u8], &mut [u8]) -> T) -> T {
    if index.is_empty() {
        return call(index, &mut []);
    }
    work::lent(|work| call(index, work))
}

/// Zeros for a log, on the heap.
fn boxed() -> Box<[u8; raw::LOG]> {
    let Ok(bytes) = vec![0; raw::LOG].into_boxed_slice().try_into() else {
        unreachable!("a log of its length");
    };
    bytes
}
