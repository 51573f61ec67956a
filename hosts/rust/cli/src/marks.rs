//! Two logs that differ in content marks alone.

use crate::json::Object;
use crate::records::Story;
use sab::{Identity, Kind, Log, Record, raw};

/// Where the mark of a record begins.
const MARK: usize = raw::WISH - 16;

/// The records of two logs that differ in their marks, by rank; none if the logs
/// differ in anything else.
pub fn alone<'a>(one: &'a Log, other: &'a Log) -> Vec<(Record<'a>, Record<'a>)> {
    let but_mark =
        |(one, other): &(Record, Record)| one.as_bytes()[..MARK] == other.as_bytes()[..MARK];
    let pairs: Vec<(Record, Record)> = one.records().zip(other.records()).collect();
    let as_many = one.records().len() == other.records().len();
    if one.archive() != other.archive() || !as_many || !pairs.iter().all(but_mark) {
        return Vec::new();
    }
    let differing = |(one, other): &(Record, Record)| one.mark() != other.mark();
    pairs.into_iter().filter(differing).collect()
}

/// What becomes of the mark of a record in the tree.
#[derive(Clone, Copy, Debug, PartialEq, Eq)]
pub enum Fate {
    /// The trace is shown with it.
    Shown,
    /// The record stands aside, for this reason.
    Aside(u8),
    /// The trace was removed.
    Gone,
    /// This store came later and fitted.
    Stored(Identity),
}

impl Fate {
    /// Why the mark is not shown, in a word, for programs.
    pub fn word(self) -> Option<&'static str> {
        match self {
            Fate::Shown => None,
            Fate::Aside(_) => Some("aside"),
            Fate::Gone => Some("gone"),
            Fate::Stored(_) => Some("stored"),
        }
    }
}

/// The trace of which a record gives the mark.
fn trace(record: Record) -> Identity {
    record.object().unwrap_or(record.identity())
}

/// What becomes of a record's mark, by the library's tree.
pub fn fate(story: &Story, record: Record) -> Fate {
    match (story.aside(record.identity()), story.entry(trace(record))) {
        (Some(aside), _) => Fate::Aside(aside.reason()),
        (None, None) => Fate::Gone,
        (None, Some(entry)) if entry.last_contents() == record.identity() => Fate::Shown,
        (None, Some(entry)) => Fate::Stored(entry.last_contents()),
    }
}

/// Whether the trace shown differs by a record's mark, and why not.
pub fn words(story: &Story, record: Record) -> String {
    let trace = trace(record);
    let entry = story.entry(trace);
    let shown = match entry.map(|entry| entry.kind()) {
        Some(Kind::Trace) => format!("the trace shown, {} ({trace}),", story.path(trace)),
        Some(Kind::Folder) => format!("the folder {} ({trace})", story.path(trace)),
        None if trace == record.identity() => "no trace".to_string(),
        None => format!("the trace {} is not shown, and", story.name(trace)),
    };
    match fate(story, record) {
        Fate::Shown => format!("{shown} differs in its mark"),
        Fate::Aside(reason) => {
            let differs = match (entry, trace == record.identity()) {
                (Some(_), _) => " does not differ by it:",
                (None, true) => " differs by it:",
                (None, false) => "",
            };
            format!("{shown}{differs} the record stands aside (reason {reason})")
        }
        Fate::Gone => {
            let (why, _) = story.absent(trace, None);
            format!("the trace {} is not shown: {why}", story.name(trace))
        }
        Fate::Stored(later) => {
            let later = story.record(later).map(|later| story.brief(later));
            let later = later.unwrap_or_default();
            format!("{shown} does not differ by it: a later store fitted, {later}")
        }
    }
}

/// The object of a record with two marks.
pub fn object(story: &Story, (one, other): (Record, Record)) -> Object {
    let (trace, fate) = (trace(one), fate(story, one));
    Object::new("mark")
        .text("record", one.identity())
        .text("operation", one.operation())
        .text("trace", trace)
        .maybe("path", story.entry(trace).map(|_| story.path(trace)))
        .maybe("first", one.mark())
        .maybe("second", other.mark())
        .truth("shown", fate == Fate::Shown)
        .maybe("why_not", fate.word())
        .text("words", words(story, one))
}
