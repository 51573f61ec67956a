//! `sab act`: a record is made.

use super::meet::tell_dry_run;
use super::{Command, Session};
use crate::archive::{Archive, Own};
use crate::args::{
    BACKUP, DATE, DRY_RUN, OWN_UNIT, Opt, Read, Usage, as_text, nearest, parsed, value,
};
use crate::failure::{Outcome, Refused, of_library, usage};
use crate::json::Object;
use crate::numbers::Case;
use crate::out::{Status, shown};
use crate::records::{Story, Wished};
use crate::why;
use sab::{Answer, Date, Identity, Log, Mark, Unit, Wish, raw};
use std::ffi::OsString;
use std::path::Path;

/// `sab act`.
pub const COMMAND: Command = Command {
    name: "act",
    usage: &[
        "act FILE --own-unit=U make-folder LABEL [--in=FOLDER]",
        "act FILE --own-unit=U make-trace LABEL [--in=FOLDER] --mark=MARK",
        "act FILE --own-unit=U store TRACE --mark=MARK",
        "act FILE --own-unit=U rename ENTRY LABEL",
        "act FILE --own-unit=U move ENTRY LABEL [--in=FOLDER]",
        "act FILE --own-unit=U remove ENTRY",
        "act FILE --own-unit=U settle RECORD",
    ],
    summary: "make a record: make-folder, make-trace, store, rename, move, remove, settle",
    page: "\
Makes a record of the file's own unit, if it fits the tree, and replaces the file.
FOLDER, TRACE, ENTRY and RECORD are identities, as 0.2; sab tree and sab asides
show them; without --in a make or a move goes into the root. MARK is 32 hexadecimal
digits. sab mv moves by paths too.

    $ sab new office.sab --archive=12 --unit=7
    office.sab: SAB1, archive 12, unit 7, 0 records
    $ sab act office.sab --own-unit=7 make-folder Bench --date=2025-03-03
    7.1: unit 7 made the folder \"Bench\" in the root on 2025-03-03

This is for a file whose only home is this machine, as an office's own unit. Never
act on the copy of an analyser's card: the analyser does not know of it and uses
the same number again, and then two records have one identity, which may stay
unnoticed for long (10 at a careful meeting). Therefore --own-unit says each time
which unit this machine is, and a file of another unit is refused.",
    options: OPTIONS,
    statuses: "0 made; 3 the file cannot be read or written; 4 refused: the wish does not fit or is malformed",
    run,
};

const OPTIONS: &[Opt] = &[
    OWN_UNIT,
    value(
        "in",
        None,
        "FOLDER",
        "the folder of a new or moved entry; without it the root",
    ),
    value(
        "mark",
        None,
        "MARK",
        "the mark of the trace's data, 32 hexadecimal digits",
    ),
    DATE,
    DRY_RUN,
    BACKUP,
];

const OPERATIONS: [&str; 7] = [
    "make-folder",
    "make-trace",
    "store",
    "rename",
    "move",
    "remove",
    "settle",
];

fn run(session: &mut Session) -> Outcome<Status> {
    let words = session.args.words().to_vec();
    let [name, operation, rest @ ..] = words.as_slice() else {
        return Err(usage(format!(
            "FILE and an operation wanted: {}",
            OPERATIONS.join(", ")
        )));
    };
    let operation = as_text(operation, "operation")?;
    make(session, Path::new(name), operation, rest)
}

/// Makes a record by an operation and its words.
pub fn make(
    session: &mut Session,
    name: &Path,
    operation: &str,
    rest: &[OsString],
) -> Outcome<Status> {
    let wanted = Wanted::read(session, operation, rest)?;
    let unit = own_unit(session)?;
    let own = Own::open(session.system, name)?;
    made(session, &own, unit, &wanted)
}

/// The unit that this machine is.
pub fn own_unit(session: &Session) -> Outcome<Unit> {
    session.args.parsed("own-unit")?.ok_or_else(|| {
        usage(
            "--own-unit=U wanted: the unit whose only home is this machine; \
             never act on the copy of an analyser's card",
        )
    })
}

/// Makes the wanted record in a file that is held, and says so.
pub fn made(session: &mut Session, own: &Own, unit: Unit, wanted: &Wanted) -> Outcome<Status> {
    let name = &own.archive.name;
    let log = act(&own.archive, unit, wanted)?;
    if !session.args.has("dry-run") {
        own.replace(&log, session.args.has("backup"))?;
    }
    let tree = log.show().map_err(of_library(name, Case::Act))?;
    let story = Story::new(&log, &tree);
    if let Some(record) = log.records().next_back() {
        session.out.object(|| {
            Object::new("made")
                .text("file", shown(name))
                .text("id", record.identity())
                .text("operation", record.operation())
                .text("words", story.sentence(record))
        });
        session.out.line(format_args!(
            "{}: {}",
            record.identity(),
            story.sentence(record)
        ));
    }
    tell_dry_run(session);
    Ok(Status::Yes)
}

const OTHER_UNIT: &str = "a unit acts on its own file alone, where its only home is; \
                          to use these records here, sab pass them to the file of your own unit";

/// The log with the wished record, if the library makes it.
fn act(archive: &Archive, unit: Unit, wanted: &Wanted) -> Outcome<Log> {
    let log = &archive.log;
    let refused = |refusal, detail| Refused::new(&archive.name, refusal, Case::Act, detail);
    let wish = wanted.wish().map_err(|refusal| {
        let detail = "the label is longer than 32 bytes".to_string();
        refused(refusal, Some(detail))
    })?;
    let wish = wish.to_bytes(unit);
    let (mut bytes, base) = (log.as_bytes().to_vec(), log.base().as_bytes());
    let (header, mut work) = (u32::from(log.unit().number()), vec![0; raw::WORK]);
    let acted = raw::act(&mut bytes, base, &mut [], log.archive(), header, &wish, &mut work);
    acted.map_err(|refusal| {
        if unit != log.unit() {
            let detail = format!("the file is of unit {}, not of unit {unit}", log.unit());
            return Refused {
                todo: Some(OTHER_UNIT.to_string()),
                ..refused(refusal, Some(detail))
            };
        }
        let detail = match refusal.number {
            7 => why::of_wish(&wish, &archive.vector),
            24 => why::of_stroke(&wish),
            number => log.show().ok().and_then(|tree| {
                let story = Story::new(log, &tree);
                story.unfit(number, &wanted.wished())
            }),
        };
        refused(refusal, detail)
    })?;
    Log::from_bytes(log.archive(), log.unit(), &bytes, base).map_err(of_library(&archive.name, Case::Act))
}

/// An operation in words, read.
pub struct Wanted {
    /// What to do.
    pub operation: Operation,
    /// The date of the record.
    pub date: Date,
}

/// What to do, and on what.
pub enum Operation {
    MakeFolder(Identity, String),
    MakeTrace(Identity, String, Mark),
    Store(Identity, Mark),
    Rename(Identity, String),
    /// An entry, its new folder, its label there.
    Move(Identity, Identity, String),
    Remove(Identity),
    Settle(Identity),
}

/// The date that is given, or today's.
pub fn date(session: &Session) -> Read<Date> {
    Ok(match session.args.parsed::<Date>("date")? {
        Some(date) => date,
        None => {
            let (year, month, day) = session.system.today();
            Date::new(year, month, day)
        }
    })
}

impl Wanted {
    fn read(session: &Session, operation: &str, rest: &[OsString]) -> Read<Wanted> {
        let args = &session.args;
        let date = date(session)?;
        let words: Vec<&str> = rest
            .iter()
            .map(|word| as_text(word, operation))
            .collect::<Read<_>>()?;
        let folder = args.parsed::<Identity>("in")?;
        let mark = args.parsed::<Mark>("mark")?;
        Ok(Wanted {
            operation: Operation::read(operation, &words, folder, mark)?,
            date,
        })
    }

    /// The wish; refused if its label is too long.
    fn wish(&self) -> Answer<Wish> {
        let date = self.date;
        match &self.operation {
            Operation::MakeFolder(folder, label) => Wish::make_folder(*folder, label, date),
            Operation::MakeTrace(folder, label, mark) => {
                Wish::make_trace(*folder, label, date, *mark)
            }
            Operation::Store(trace, mark) => Ok(Wish::store(*trace, date, *mark)),
            Operation::Rename(entry, label) => Wish::rename(*entry, label, date),
            Operation::Move(entry, folder, label) => Wish::move_to(*entry, *folder, label, date),
            Operation::Remove(entry) => Ok(Wish::remove(*entry, date)),
            Operation::Settle(record) => Ok(Wish::settle(*record, date)),
        }
    }

    /// What it names.
    fn wished(&self) -> Wished<'_> {
        let (folder, object, label) = match &self.operation {
            Operation::MakeFolder(folder, label) | Operation::MakeTrace(folder, label, _) => {
                (Some(*folder), None, Some(label.as_str()))
            }
            Operation::Rename(entry, label) => (None, Some(*entry), Some(label.as_str())),
            Operation::Move(entry, folder, label) => {
                (Some(*folder), Some(*entry), Some(label.as_str()))
            }
            Operation::Store(entry, _) | Operation::Remove(entry) | Operation::Settle(entry) => {
                (None, Some(*entry), None)
            }
        };
        Wished {
            folder,
            object,
            label,
        }
    }
}

impl Operation {
    fn read(
        name: &str,
        words: &[&str],
        folder: Option<Identity>,
        mark: Option<Mark>,
    ) -> Read<Operation> {
        if !OPERATIONS.contains(&name) {
            let near =
                nearest(name, OPERATIONS.into_iter()).map(|near| format!(": did you mean {near}?"));
            return Err(Usage(format!(
                "no operation {}{}",
                name.escape_debug(),
                near.unwrap_or_default()
            )));
        }
        if folder.is_some() && !matches!(name, "make-folder" | "make-trace" | "move") {
            return Err(Usage(format!("{name} has no --in")));
        }
        if mark.is_some() && !matches!(name, "make-trace" | "store") {
            return Err(Usage(format!("{name} has no --mark")));
        }
        let mark = || mark.ok_or_else(|| Usage(format!("{name} needs --mark=MARK")));
        let identity = |text: &str| parsed::<Identity>(text, name);
        let folder = folder.unwrap_or(Identity::ROOT);
        Ok(match (name, words) {
            ("make-folder", [label]) => Operation::MakeFolder(folder, label.to_string()),
            ("make-trace", [label]) => Operation::MakeTrace(folder, label.to_string(), mark()?),
            ("store", [trace]) => Operation::Store(identity(trace)?, mark()?),
            ("rename", [entry, label]) => Operation::Rename(identity(entry)?, label.to_string()),
            ("move", [entry, label]) => {
                Operation::Move(identity(entry)?, folder, label.to_string())
            }
            ("remove", [entry]) => Operation::Remove(identity(entry)?),
            ("settle", [record]) => Operation::Settle(identity(record)?),
            ("make-folder" | "make-trace", _) => {
                return Err(Usage(format!("{name} LABEL wanted")));
            }
            ("rename" | "move", _) => {
                return Err(Usage(format!("{name} ENTRY LABEL wanted")));
            }
            _ => return Err(Usage(format!("{name} and one identity wanted"))),
        })
    }
}
