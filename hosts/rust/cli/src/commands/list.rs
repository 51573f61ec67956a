//! `sab list`: the listing.

use super::{Command, Session};
use crate::archive::{Archive, Form, LIMIT, judge};
use crate::args::value;
use crate::failure::{Failure, Outcome, Refused, of_library, usage};
use crate::files;
use crate::numbers::Case;
use crate::out::Status;
use crate::records::{Story, kind_word, state as aside_state};
use crate::why;
use sab::raw;
use std::path::Path;

/// `sab list`.
pub const COMMAND: Command = Command {
    name: "list",
    usage: &["list FILE [--format=text|jsonl|csv]"],
    summary: "the listing, byte for byte as readout prints it",
    page: "\
Prints archive, unit and count of records; the vector; a line for each folder and
trace, by rank of the record that made it; a line for each aside. The text is the
listing of docs/FORMAT.md, byte for byte what readout prints, also of a refused
file.

    $ sab list bench.sab
    archive 7 unit 0 records 3
    seen 2 1 0 0 0 0 0 0
    folder 0.1 in 0.0 \"Bench\" 2025-03-03
    trace 0.2 in 0.1 \"Gain \\\"A\\\"\" 2025-03-04 11111111111111111111111111111111 disputed
    aside 1.1 reason 15 marks 0.2 open",
    options: &[value(
        "format",
        None,
        "FORM",
        "text; jsonl, the same as --json; csv, for a table",
    )],
    statuses: "0 the file is good; 3 it cannot be read; 4 it is refused",
    run,
};

fn run(session: &mut Session) -> Outcome<Status> {
    let names = session.args.files(1..=1, "one FILE")?;
    let name = &names[0];
    match session.args.text("format")? {
        None | Some("text") if !session.out.json => text(session, name),
        None | Some("jsonl") => {
            session.out.json = true;
            objects(session, name)
        }
        Some("csv") if !session.out.json => csv(session, name),
        Some("csv" | "text") => Err(usage("--json and --format contradict each other")),
        Some(other) => Err(usage(format!(
            "--format: {} is not text, jsonl or csv",
            other.escape_debug()
        ))),
    }
}

fn text(session: &mut Session, name: &Path) -> Outcome<Status> {
    let read = files::read(session.system, name, LIMIT)?;
    if Form::of(&read.bytes) == Form::State {
        let log = judge(name, &read.bytes, read.length)?;
        let archive = Archive::of(name, Form::State, log, read.id)?;
        session.out.bytes(archive.listing()?.as_bytes());
        return Ok(Status::Yes);
    }
    let [mut log, mut base, mut tree] = [raw::LOG, raw::BASE, raw::TREE].map(|size| vec![0; size]);
    let mut out = vec![0; raw::LISTING];
    let listed = raw::listing(&read.bytes, &mut log, &mut base, &mut tree, &mut out)
        .map_err(of_library(name, Case::File))?;
    session.out.bytes(&out[..listed.length.min(out.len())]);
    match listed.refused {
        None => Ok(Status::Yes),
        Some(refusal) => {
            let detail = why::of_file(&read.bytes, read.length, refusal);
            let refused = Refused::new(name, refusal, Case::File, detail);
            Err(Failure::Refused(refused))
        }
    }
}

fn read(session: &Session, name: &Path) -> Outcome<Archive> {
    let read = files::read(session.system, name, LIMIT)?;
    let log = judge(name, &read.bytes, read.length)?;
    Archive::of(name, Form::of(&read.bytes), log, read.id)
}

fn objects(session: &mut Session, name: &Path) -> Outcome<Status> {
    let archive = read(session, name)?;
    let tree = archive.tree()?;
    let story = Story::new(&archive.log, &tree);
    session.out.object(|| archive.object());
    for entry in tree.entries() {
        session.out.object(|| story.entry_object(entry));
    }
    for aside in tree.asides() {
        session.out.object(|| story.aside_object(aside));
    }
    Ok(Status::Yes)
}

/// A field of a table; quotes are doubled.
fn field(text: &str) -> String {
    format!("\"{}\"", text.replace('"', "\"\""))
}

fn csv(session: &mut Session, name: &Path) -> Outcome<Status> {
    let archive = read(session, name)?;
    let tree = archive.tree()?;
    session
        .out
        .line("kind,id,in,label,date,mark,state,reason,marks");
    for entry in tree.entries() {
        session.out.line(format_args!(
            "{},{},{},{},{},{},{},,",
            kind_word(entry.kind()),
            entry.identity(),
            entry.folder(),
            field(entry.label()),
            entry.date(),
            entry
                .mark()
                .map(|mark| mark.to_string())
                .unwrap_or_default(),
            if entry.is_disputed() { "disputed" } else { "" }
        ));
    }
    for aside in tree.asides() {
        session.out.line(format_args!(
            "aside,{},,,,,{},{},{}",
            aside.identity(),
            aside_state(aside),
            aside.reason(),
            aside
                .marks()
                .map(|marks| marks.to_string())
                .unwrap_or_default()
        ));
    }
    Ok(Status::Yes)
}
