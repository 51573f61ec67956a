//! `sab log`: the records in words.

use super::{Command, Session};
use crate::archive::Archive;
use crate::args::{as_text, parsed};
use crate::failure::{Outcome, usage};
use crate::json::Object;
use crate::out::{Ink, Status};
use crate::records::{Story, state};
use crate::why::counted;
use sab::{Identity, Record};
use std::path::PathBuf;

/// `sab log`.
pub const COMMAND: Command = Command {
    name: "log",
    usage: &["log FILE [RECORD]"],
    summary: "every record in words, and whether it acts or stands aside",
    page: "\
Prints a line for each record, in the order in which they are replayed: identity,
date, who did what, and whether it acts or stands aside, under which reason. With
the identity of a record, all about that one: its fields, what its maker had seen,
and why it stands aside.

    $ sab log bench.sab
    0.1  2025-03-03  unit 0 made the folder \"Bench\" in the root  acts
    0.2  2025-03-04  unit 0 made the trace \"Gain \\\"A\\\"\" in 0.1 \"Bench\"  acts
    1.1  2025-03-05  unit 1 wanted to make the trace \"Gain \\\"A\\\"\" in 0.1 \"Bench\"  aside, reason 15, open
    3 records of 512, 1 stands aside",
    options: &[],
    statuses: "0 printed; 1 no such record; 3 the file cannot be read; 4 it is refused",
    run,
};

fn run(session: &mut Session) -> Outcome<Status> {
    let (name, only) = match session.args.words() {
        [name] => (PathBuf::from(name), None),
        [name, record] => {
            let record: Identity = parsed(as_text(record, "RECORD")?, "RECORD")?;
            (PathBuf::from(name), Some(record))
        }
        _ => return Err(usage("one FILE wanted, and a RECORD at the most")),
    };
    let archive = Archive::read(session.system, &name)?;
    let tree = archive.tree()?;
    let story = Story::new(&archive.log, &tree);
    let Some(only) = only else {
        all(session, &archive, &story);
        return Ok(Status::Yes);
    };
    match story.record(only) {
        Some(record) => {
            one(session, &story, record);
            Ok(Status::Yes)
        }
        None if archive.log.base().has_folded(only) => {
            let words = format!("record {only} is folded: it is no longer in the log");
            session.out.complain(Some(&name), words, None);
            Ok(Status::No)
        }
        None => {
            let words = format!("no record {only} is held; seen {}", archive.vector);
            session.out.complain(Some(&name), words, None);
            Ok(Status::No)
        }
    }
}

fn all(session: &mut Session, archive: &Archive, story: &Story) {
    session.out.object(|| archive.object());
    let records = story.records();
    let width = records
        .iter()
        .map(|record| record.identity().to_string().len())
        .max()
        .unwrap_or(0);
    for record in records {
        session.out.object(|| object(story, *record));
        let end = match story.aside(record.identity()) {
            None => session.out.ink(Ink::Faint, "acts"),
            Some(_) => session.out.ink(Ink::Alarm, standing(story, *record)),
        };
        session.out.line(format_args!(
            "{:width$}  {}  unit {} {}  {end}",
            record.identity(),
            record.date(),
            record.unit(),
            story.what(*record)
        ));
    }
    if archive.folded() > 0 {
        session.out.line(format_args!(
            "{} folded: only in the base",
            counted(archive.folded() as usize, "record")
        ));
    }
    let aside = match story.totals().asides {
        0 => "none stands aside".to_string(),
        1 => "1 stands aside".to_string(),
        some => format!("{some} stand aside"),
    };
    session.out.line(format_args!(
        "{} of {}, {aside}",
        counted(records.len(), "record"),
        crate::archive::ROOM
    ));
}

/// Whether a record acts or stands aside.
fn standing(story: &Story, record: Record) -> String {
    match story.aside(record.identity()) {
        None => "acts".to_string(),
        Some(aside) => format!("aside, reason {}, {}", aside.reason(), state(aside)),
    }
}

fn one(session: &mut Session, story: &Story, record: Record) {
    session.out.object(|| object(story, record));
    let mut line = |key: &str, text: String| {
        session.out.line(format_args!("{key:<10}{text}"));
    };
    line("record", record.identity().to_string());
    line("operation", record.operation().to_string());
    line("unit", record.unit().to_string());
    line("date", record.date().to_string());
    line("seen", record.seen().to_string());
    if let Some(object) = record.object() {
        line("object", story.name(object));
    }
    if let Some(folder) = record.folder() {
        line("folder", story.name(folder));
    }
    if let Some(label) = record.label() {
        line("label", crate::records::quoted(label));
    }
    if let Some(mark) = record.mark() {
        line("mark", mark.to_string());
    }
    line("stands", standing(story, record));
    if let Some(aside) = story.aside(record.identity()) {
        let told = story.told(aside);
        line("why", told.because);
        line("stake", told.stake.words());
        line("to do", told.todo);
    }
}

fn object(story: &Story, record: Record) -> Object {
    let aside = story.aside(record.identity());
    Object::new("record")
        .text("id", record.identity())
        .number("unit", record.unit().number())
        .text("operation", record.operation())
        .text("date", record.date())
        .numbers("seen", record.seen().counts())
        .maybe("object", record.object())
        .maybe("folder", record.folder())
        .maybe("label", record.label())
        .maybe("mark", record.mark())
        .truth("acts", aside.is_none())
        .maybe_number("reason", aside.map(|aside| aside.reason()))
        .text("words", story.sentence(record))
}
