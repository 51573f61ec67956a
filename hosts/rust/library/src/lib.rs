//! The entry points of an implementation, for programs that run or compare them.

pub mod tree;

pub use plain_rust::Plain;
#[cfg(feature = "static")]
pub use static_library::Static;

/// A call's no: the number of the refusal table and the block's place.
#[derive(Clone, Copy, Debug, PartialEq, Eq)]
pub struct Refusal {
    pub number: u8,
    pub place: u8,
}

pub type Answer<T> = Result<T, Refusal>;

/// A merge's no, with the file at fault: 1, 2, or 0 for neither.
#[derive(Clone, Copy, Debug, PartialEq, Eq)]
pub struct MergeRefusal {
    pub refusal: Refusal,
    pub file: u8,
}

impl From<MergeRefusal> for Refusal {
    fn from(merging: MergeRefusal) -> Refusal {
        merging.refusal
    }
}

/// A plan's no: the number, and the block's place.
#[derive(Clone, Copy, Debug, PartialEq, Eq)]
pub struct PlanRefusal {
    pub number: u8,
    pub place: u16,
}

/// What a file says of itself.
#[derive(Clone, Copy, Debug, PartialEq, Eq)]
pub struct Head {
    pub archive: u32,
    pub unit: u8,
    pub records: u16,
    pub vector: [u16; 8],
}

/// What comparing two vectors answers: 0 to 3, and how many records each lacks.
#[derive(Clone, Copy, Debug, PartialEq, Eq)]
pub struct Compared {
    pub answer: u8,
    pub first_lacks: u32,
    pub second_lacks: u32,
}

/// How far a row was taken: how many blocks, and the number that stopped it, or
/// 0.
#[derive(Clone, Copy, Debug, PartialEq, Eq)]
pub struct RowTaken {
    pub taken: u8,
    pub stopped: u8,
}

/// The memory lent for a trial.
pub struct Trial {
    pub copy: Vec<u8>,
    pub tree: Vec<u8>,
    pub report: Vec<u8>,
}

/// The rows of a folder in an index: the first, and how many.
#[derive(Clone, Copy, Debug, PartialEq, Eq)]
pub struct Range {
    pub first: u16,
    pub count: u16,
}

/// A folder that is asked for: any two numbers, meant as unit and number.
pub type Folder = (u32, u32);

/// The folder in four bytes of a table or an index.
pub fn folder_of(bytes: &[u8]) -> Folder {
    let number = u16::from_le_bytes([bytes[2], bytes[3]]);
    (bytes[0].into(), number.into())
}

/// Bytes of a log.
pub const LOG: usize = 40_960;

/// Bytes of the eight logs of a plan.
pub const LOGS: usize = 8 * LOG;

/// Bytes of a list and base.
pub const BASE: usize = 43_032;

/// Bytes of a tree table.
pub const TREE: usize = 86_020;

/// Bytes of an index.
pub const INDEX: usize = 40_964;

/// Bytes of the report of a trial.
pub const REPORT: usize = 4_116;

/// Bytes lent for an SAB1 file.
pub const FILE: usize = 44_032;

/// Bytes lent for an SAB2 file.
pub const SAB2_FILE: usize = 95_232;

/// Bytes lent for a listing; none is longer.
pub const LISTING: usize = 172_544;

/// The base that a unit has at first: all eight units are listed, and nothing is
/// folded.
pub fn empty_base() -> Vec<u8> {
    plain::EMPTY_BASE.to_vec()
}

/// The entry points. A base is lent beside each log, an index to those that change
/// a log, or no bytes. Work memory is an implementation's own business here.
/// Those that answer an `Option` alone are run beside what follows from the
/// others, where an implementation offers them.
pub trait Library {
    fn start(
        &self,
        log: &mut [u8],
        base: &mut [u8],
        index: &mut [u8],
        archive: u32,
        unit: u32,
    ) -> Answer<()>;
    fn act(
        &self,
        log: &mut [u8],
        base: &[u8],
        index: &mut [u8],
        archive: u32,
        unit: u32,
        wish: &[u8],
    ) -> Answer<()>;
    fn hand_out(
        &self,
        log: &[u8],
        base: &[u8],
        archive: u32,
        unit: u32,
        asked: &[u16; 8],
        block: &mut [u8],
    ) -> Answer<()>;
    fn take(
        &self,
        log: &mut [u8],
        base: &[u8],
        index: &mut [u8],
        archive: u32,
        unit: u32,
        block: &[u8],
    ) -> Answer<()>;
    fn hand_out_row(
        &self,
        log: &[u8],
        base: &[u8],
        archive: u32,
        unit: u32,
        asked: &[u16; 8],
        row: &mut [u8],
    ) -> Answer<u16>;
    fn take_row(
        &self,
        log: &mut [u8],
        base: &[u8],
        index: &mut [u8],
        archive: u32,
        unit: u32,
        row: &[u8],
    ) -> Answer<RowTaken>;
    fn try_row(
        &self,
        log: &[u8],
        base: &[u8],
        archive: u32,
        unit: u32,
        row: &[u8],
        trial: &mut Trial,
    ) -> Answer<()>;
    fn write_file(
        &self,
        log: &[u8],
        base: &[u8],
        archive: u32,
        unit: u32,
        file: &mut [u8],
    ) -> Answer<u16>;
    fn write_sab2(
        &self,
        log: &[u8],
        base: &[u8],
        archive: u32,
        unit: u32,
        file: &mut [u8],
    ) -> Answer<u16>;
    /// A file of either form.
    fn read_file(&self, log: &mut [u8], base: &mut [u8], file: &[u8]) -> Answer<Head>;
    fn to_sab2(&self, file: &[u8], out: &mut [u8]) -> Answer<u16>;
    fn to_sab1(&self, file: &[u8], out: &mut [u8]) -> Answer<u16>;
    /// A list has bit u for unit u. How many records were folded.
    fn fold(
        &self,
        log: &mut [u8],
        base: &mut [u8],
        archive: u32,
        unit: u32,
        list: u8,
    ) -> Answer<u16>;
    fn show(&self, log: &[u8], base: &[u8], tree: &mut [u8]) -> Answer<()>;
    /// The condition that failed first, or 0; a list has four bytes a name.
    fn check_order(
        &self,
        log: &[u8],
        base: &[u8],
        list: &[u8],
        ours: &mut [u8],
        theirs: &mut [u8],
    ) -> Answer<u16>;
    fn index(&self, log: &[u8], base: &[u8], index: &mut [u8]) -> Answer<()>;
    /// A folder is given by unit and number; so is the entry.
    fn find(&self, index: &[u8], folder: Folder, label: &[u8]) -> Answer<Option<(u8, u16)>>;
    fn list(&self, index: &[u8], folder: Folder) -> Answer<Range>;
    fn compare(&self, first: &[u16; 8], second: &[u16; 8]) -> Compared;
    fn vector(&self, log: &[u8], base: &[u8]) -> Answer<[u16; 8]>;
    fn merge(
        &self,
        first: &[u8],
        second: &[u8],
        log: &mut [u8],
        file: &mut [u8],
    ) -> Result<u16, MergeRefusal>;
    /// Tries a plan on the eight logs laid end to end: how it was refused, if it was,
    /// and what is printed.
    fn try_plan(&self, plan: &[u8], logs: &mut [u8; LOGS]) -> (Result<(), PlanRefusal>, Vec<u8>);

    /// Writes a file's listing or its line of refusal; its length.
    fn listing_into(&self, _file: &[u8], _out: &mut [u8]) -> Option<usize> {
        None
    }
    fn is_date(&self, _year: u16, _month: u8, _day: u8) -> Option<bool> {
        None
    }
    fn well_formed(&self, _record: &[u8; 80]) -> Option<bool> {
        None
    }
    fn sums(&self, _block: &[u8; 512]) -> Option<(u16, u16)> {
        None
    }
    fn sound(&self, _log: &[u8], _base: &[u8]) -> Option<bool> {
        None
    }
}

/// The entry points of a crate that has them by these names.
macro_rules! entry_points {
    ($library:ident) => {
        fn start(
            &self,
            log: &mut [u8],
            base: &mut [u8],
            index: &mut [u8],
            archive: u32,
            unit: u32,
        ) -> Answer<()> {
            $library::start(log, base, index, archive, unit_of(unit)).map_err(refusal)
        }
        fn act(
            &self,
            log: &mut [u8],
            base: &[u8],
            index: &mut [u8],
            archive: u32,
            unit: u32,
            wish: &[u8],
        ) -> Answer<()> {
            $library::act(log, base, index, archive, unit_of(unit), wish).map_err(refusal)
        }
        fn hand_out(
            &self,
            log: &[u8],
            base: &[u8],
            archive: u32,
            unit: u32,
            asked: &[u16; 8],
            block: &mut [u8],
        ) -> Answer<()> {
            $library::hand_out(log, base, archive, unit_of(unit), asked, block).map_err(refusal)
        }
        fn take(
            &self,
            log: &mut [u8],
            base: &[u8],
            index: &mut [u8],
            archive: u32,
            unit: u32,
            block: &[u8],
        ) -> Answer<()> {
            $library::take(log, base, index, archive, unit_of(unit), block).map_err(refusal)
        }
        fn hand_out_row(
            &self,
            log: &[u8],
            base: &[u8],
            archive: u32,
            unit: u32,
            asked: &[u16; 8],
            row: &mut [u8],
        ) -> Answer<u16> {
            $library::hand_out_row(log, base, archive, unit_of(unit), asked, row).map_err(refusal)
        }
        fn take_row(
            &self,
            log: &mut [u8],
            base: &[u8],
            index: &mut [u8],
            archive: u32,
            unit: u32,
            row: &[u8],
        ) -> Answer<RowTaken> {
            let $library::RowTaken { taken, stopped } =
                $library::take_row(log, base, index, archive, unit_of(unit), row).map_err(refusal)?;
            Ok(RowTaken { taken, stopped })
        }
        fn try_row(
            &self,
            log: &[u8],
            base: &[u8],
            archive: u32,
            unit: u32,
            row: &[u8],
            trial: &mut Trial,
        ) -> Answer<()> {
            let Trial { copy, tree, report } = trial;
            $library::try_row(log, base, archive, unit_of(unit), row, copy, tree, report)
                .map_err(refusal)
        }
        fn write_file(
            &self,
            log: &[u8],
            base: &[u8],
            archive: u32,
            unit: u32,
            file: &mut [u8],
        ) -> Answer<u16> {
            $library::write_file(log, base, archive, unit_of(unit), file).map_err(refusal)
        }
        fn write_sab2(
            &self,
            log: &[u8],
            base: &[u8],
            archive: u32,
            unit: u32,
            file: &mut [u8],
        ) -> Answer<u16> {
            $library::write_sab2(log, base, archive, unit_of(unit), file).map_err(refusal)
        }
        fn to_sab2(&self, file: &[u8], out: &mut [u8]) -> Answer<u16> {
            $library::to_sab2(file, out).map_err(refusal)
        }
        fn to_sab1(&self, file: &[u8], out: &mut [u8]) -> Answer<u16> {
            $library::to_sab1(file, out).map_err(refusal)
        }
        fn fold(
            &self,
            log: &mut [u8],
            base: &mut [u8],
            archive: u32,
            unit: u32,
            list: u8,
        ) -> Answer<u16> {
            $library::fold(log, base, archive, unit_of(unit), list).map_err(refusal)
        }
        fn read_file(&self, log: &mut [u8], base: &mut [u8], file: &[u8]) -> Answer<Head> {
            let $library::Head {
                archive,
                unit,
                records,
                vector,
            } = $library::read_file(log, base, file).map_err(refusal)?;
            Ok(Head {
                archive,
                unit,
                records,
                vector,
            })
        }
        fn show(&self, log: &[u8], base: &[u8], tree: &mut [u8]) -> Answer<()> {
            $library::show(log, base, tree).map_err(refusal)
        }
        fn check_order(
            &self,
            log: &[u8],
            base: &[u8],
            list: &[u8],
            ours: &mut [u8],
            theirs: &mut [u8],
        ) -> Answer<u16> {
            $library::check_order(log, base, list, ours, theirs).map_err(refusal)
        }
        fn index(&self, log: &[u8], base: &[u8], index: &mut [u8]) -> Answer<()> {
            $library::index(log, base, index).map_err(refusal)
        }
        fn find(&self, index: &[u8], folder: Folder, label: &[u8]) -> Answer<Option<(u8, u16)>> {
            $library::find(index, folder.0, folder.1, label).map_err(refusal)
        }
        fn list(&self, index: &[u8], folder: Folder) -> Answer<Range> {
            let $library::Range { first, count } =
                $library::list(index, folder.0, folder.1).map_err(refusal)?;
            Ok(Range { first, count })
        }
        fn compare(&self, first: &[u16; 8], second: &[u16; 8]) -> Compared {
            let $library::Compared {
                answer,
                first_lacks,
                second_lacks,
            } = $library::compare(first, second);
            Compared {
                answer,
                first_lacks,
                second_lacks,
            }
        }
        fn vector(&self, log: &[u8], base: &[u8]) -> Answer<[u16; 8]> {
            $library::vector(log, base).map_err(refusal)
        }
        fn merge(
            &self,
            first: &[u8],
            second: &[u8],
            log: &mut [u8],
            file: &mut [u8],
        ) -> Result<u16, MergeRefusal> {
            $library::merge(first, second, log, file).map_err(|merging| MergeRefusal {
                refusal: refusal(merging.refusal),
                file: merging.file,
            })
        }
    };
}

/// The plain Rust implementation.
mod plain_rust {
    use super::{
        Answer, Compared, Folder, Head, LOGS, Library, MergeRefusal, PlanRefusal, Range, Refusal,
        RowTaken, Trial,
    };

    pub struct Plain;

    /// A unit above 7 is refused, whichever it is.
    fn unit_of(unit: u32) -> u8 {
        unit.try_into().unwrap_or(u8::MAX)
    }

    fn refusal(plain::Refusal { number, place }: plain::Refusal) -> Refusal {
        Refusal { number, place }
    }

    impl Library for Plain {
        entry_points!(plain);

        fn try_plan(
            &self,
            plan: &[u8],
            logs: &mut [u8; LOGS],
        ) -> (Result<(), PlanRefusal>, Vec<u8>) {
            let mut text = [0; plain::PLAN_TEXT];
            let (tried, length) = plain::try_plan(plan, logs, &mut text);
            let refused = |plain::PlanRefusal { number, place }| PlanRefusal { number, place };
            (tried.map_err(refused), text[..length].to_vec())
        }

        fn listing_into(&self, file: &[u8], out: &mut [u8]) -> Option<usize> {
            let out = out.first_chunk_mut()?;
            Some(plain::listing(file, out))
        }
        fn is_date(&self, year: u16, month: u8, day: u8) -> Option<bool> {
            Some(plain::is_date(year, month, day))
        }
        fn well_formed(&self, record: &[u8; 80]) -> Option<bool> {
            Some(plain::well_formed(record))
        }
        fn sums(&self, block: &[u8; 512]) -> Option<(u16, u16)> {
            Some(plain::sums(block))
        }
        fn sound(&self, log: &[u8], base: &[u8]) -> Option<bool> {
            Some(plain::sound(log, base))
        }
    }
}

/// The static library.
#[cfg(feature = "static")]
mod static_library {
    use super::{
        Answer, BASE, Compared, Folder, Head, LOGS, Library, MergeRefusal, PlanRefusal, Range,
        Refusal, RowTaken, Trial,
    };
    use sab::raw;
    use std::cell::RefCell;

    pub struct Static;

    thread_local! {
        /// Work memory of a call.
        static WORK: RefCell<Vec<u8>> = RefCell::new(vec![0; raw::WORK]);
        /// Work space of a listing: a log, a base and a tree.
        static LISTED: RefCell<[Vec<u8>; 3]> =
            RefCell::new([raw::LOG, raw::BASE, raw::TREE].map(|length| vec![0; length]));
    }

    /// The calls as a trait has them: with work memory of their own.
    mod calls {
        use super::{WORK, raw};
        use sab::Answer;

        pub use raw::{
            Compared, Head, Range, RowTaken, check_order, compare, find, hand_out, hand_out_row,
            list, merge, read_file, show, start, to_sab1, to_sab2, try_row, vector, write_file,
            write_sab2,
        };

        /// Work memory is lent to a take with an index, and none without.
        fn with_index<T>(index: &mut [u8], call: impl FnOnce(&mut [u8], &mut [u8]) -> T) -> T {
            if index.is_empty() {
                return call(index, &mut []);
            }
            WORK.with_borrow_mut(|work| call(index, work))
        }

        pub fn act(
            log: &mut [u8],
            base: &[u8],
            index: &mut [u8],
            archive: u32,
            unit: u32,
            wish: &[u8],
        ) -> Answer<()> {
            WORK.with_borrow_mut(|work| raw::act(log, base, index, archive, unit, wish, work))
        }

        pub fn take(
            log: &mut [u8],
            base: &[u8],
            index: &mut [u8],
            archive: u32,
            unit: u32,
            block: &[u8],
        ) -> Answer<()> {
            with_index(index, |index, work| {
                raw::take(log, base, index, archive, unit, block, work)
            })
        }

        pub fn take_row(
            log: &mut [u8],
            base: &[u8],
            index: &mut [u8],
            archive: u32,
            unit: u32,
            row: &[u8],
        ) -> Answer<RowTaken> {
            with_index(index, |index, work| {
                raw::take_row(log, base, index, archive, unit, row, work)
            })
        }

        pub fn fold(
            log: &mut [u8],
            base: &mut [u8],
            archive: u32,
            unit: u32,
            list: u8,
        ) -> Answer<u16> {
            WORK.with_borrow_mut(|work| raw::fold(log, base, archive, unit, list.into(), work))
        }

        pub fn index(log: &[u8], base: &[u8], index: &mut [u8]) -> Answer<()> {
            WORK.with_borrow_mut(|work| raw::index(log, base, index, work))
        }
    }

    fn unit_of(unit: u32) -> u32 {
        unit
    }

    fn refusal(sab::Refusal { number, place }: sab::Refusal) -> Refusal {
        Refusal { number, place }
    }

    impl Library for Static {
        entry_points!(calls);

        fn try_plan(
            &self,
            plan: &[u8],
            logs: &mut [u8; LOGS],
        ) -> (Result<(), PlanRefusal>, Vec<u8>) {
            let (mut base, mut text) = (vec![0; BASE], vec![0; raw::PLAN_TEXT]);
            let tried = WORK.with_borrow_mut(|work| {
                raw::try_plan(plan, logs, &mut base, work, &mut text)
            });
            let tried = tried.expect("buffers of their lengths");
            text.truncate(tried.length);
            let refused = tried.refused.map_or(Ok(()), |refused| {
                Err(PlanRefusal {
                    number: refused.number,
                    place: refused.place,
                })
            });
            (refused, text)
        }

        fn listing_into(&self, file: &[u8], out: &mut [u8]) -> Option<usize> {
            LISTED.with_borrow_mut(|[log, base, tree]| {
                let listed = raw::listing(file, log, base, tree, out).ok()?;
                Some(listed.length)
            })
        }
    }
}
