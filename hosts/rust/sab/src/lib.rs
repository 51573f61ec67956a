//! The proved record folder for Rust programs.
//!
//! Up to eight bench analysers, units 0 to 7, share an archive of folders and
//! traces. Every change is a record of 80 bytes in the unit's [`Log`]; units
//! meet in twos and pass [`Block`]s of 512 bytes; the [`Tree`] follows from the
//! records alone. A record that does not fit the tree stands aside, with a
//! reason, at every unit alike. An [`Index`] kept with a log finds a label in a
//! folder, and lists a folder by label. [`Log::fold`] frees the places of records
//! that all units have heard of; what these left is the [`Base`] of the log. A log
//! is kept as a file, of one of two [`Form`]s.
//! `include/sab.h` is the manual of the calls, and [`raw`] has them over slices.
//!
//! A whole meeting of two units that worked apart:
//!
//! ```
//! use sab::{Date, Identity, Log, Mark, Unit, Wish, meet};
//!
//! fn main() -> Result<(), Box<dyn std::error::Error>> {
//!     let archive = 7;
//!     let mut van = Log::start(archive, Unit::try_from(0)?);
//!     let mut bench = Log::start(archive, Unit::try_from(1)?);
//!     let monday = Date::new(2025, 3, 3);
//!
//!     // A common folder; then both make a trace in it, under one label.
//!     let folder = van.act(&Wish::make_folder(Identity::ROOT, "Bench", monday)?)?;
//!     assert!(meet(&mut van, &mut bench).is_complete());
//!     let gain = van.act(&Wish::make_trace(folder, "Gain \"A\"", monday, Mark([0x11; 16]))?)?;
//!     let late = bench.act(&Wish::make_trace(folder, "Gain \"A\"", monday, Mark([0x22; 16]))?)?;
//!
//!     // They meet again. Equal vectors: the same records, the same tree.
//!     let meeting = meet(&mut van, &mut bench);
//!     assert!(meeting.is_complete(), "{meeting}");
//!     assert_eq!(van.vector()?, bench.vector()?);
//!     assert_eq!(van.vector()?.to_string(), "2 1 0 0 0 0 0 0");
//!
//!     // One of the two gave way, at both units alike.
//!     let tree = bench.show()?;
//!     let entry = tree.entry(gain).ok_or("no such entry")?;
//!     assert_eq!(entry.label(), "Gain \"A\"");
//!     assert!(entry.is_disputed());
//!     let aside = tree.asides().next().ok_or("nothing stands aside")?;
//!     assert_eq!((aside.identity(), aside.reason()), (late, 15));
//!     assert_eq!(aside.marks(), Some(gain));
//!
//!     // Someone looks after it: another label, and the aside is settled.
//!     bench.act(&Wish::make_trace(folder, "Gain B", monday, Mark([0x22; 16]))?)?;
//!     bench.act(&Wish::settle(late, monday))?;
//!     assert!(meet(&mut bench, &mut van).is_complete());
//!     assert!(!van.show()?.asides().any(|aside| aside.is_open()));
//!
//!     // A log is kept as its file.
//!     let card = van.write_file()?;
//!     let read = Log::read_file(&card)?;
//!     assert_eq!((read.archive(), read.unit()), (archive, van.unit()));
//!     assert_eq!(read, van);
//!     Ok(())
//! }
//! ```

#![deny(missing_docs)]
#![deny(unsafe_code)]

mod base;
mod block;
mod ffi;
mod fields;
mod file;
mod index;
mod log;
mod meeting;
mod merge;
mod order;
mod plan;
pub mod raw;
mod record;
mod refusal;
mod row;
mod tree;
mod unit;
mod vector;
mod wish;
mod work;

pub use base::Base;
pub use block::Block;
pub use fields::{Date, Mark, Operation};
pub use file::{Form, to_sab1, to_sab2};
pub use index::{Index, Indexed};
pub use log::Log;
pub use meeting::{Asking, Meeting, Pass, meet, pass};
pub use merge::{MergeRefusal, merge};
pub use order::{Condition, OrderChecked};
pub use plan::{Event, Plan, PlanRefusal, Visits, try_plan};
pub use record::{Record, Records};
pub use refusal::{Answer, Refusal, Unreadable, in_words};
pub use row::{Row, RowTaken, Trial};
pub use tree::{Aside, Entry, Kind, Tree};
pub use unit::{Identity, Unit, Units};
pub use vector::{Comparison, Distance, Vector, blocks_for};
pub use wish::Wish;
