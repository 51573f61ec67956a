//! `sab merge`: one file out of two.

use super::{Command, Session};
use crate::archive::{Archive, Form, LIMIT};
use crate::args::value;
use crate::failure::{Failure, Outcome, Refused, of_library, usage};
use crate::files::{self, Bytes, Over, is_standard};
use crate::json::Object;
use crate::meeting::{held_otherwise, twice_words};
use crate::numbers::Case;
use crate::out::{Status, shown};
use crate::why::{self, counted};
use sab::raw::BLOCK;
use sab::{Log, MergeRefusal};
use std::path::{Path, PathBuf};

/// `sab merge`.
pub const COMMAND: Command = Command {
    name: "merge",
    usage: &["merge FIRST SECOND -o OUT"],
    summary: "one file of all records of two cards",
    page: "\
Writes a new file OUT with all records of two cards of one archive, those that both
have once: the last card of an analyser that is retired and its successor's, say.
OUT has the unit of FIRST; else the order decides nothing of what is written.

    $ sab merge card1.sab card0.sab -o both.sab
    both.sab: SAB1, archive 12, unit 1, 3 records, seen 2 1 0 0 0 0 0 0
    2 records of card1.sab, 1 more of card0.sab

Both cards are of the form SAB1; one of the form SAB2 is refused (3, or 2). Each is
checked as sab check does it, FIRST wholly before SECOND. Then they must be of one
archive (6), have the same record under every identity that both have (10), and
together no more than 512 records (11). A refusal names the card and its block, and
nothing is written. The cards stay as they are.",
    options: &[value(
        "output",
        Some('o'),
        "OUT",
        "the file to write; - is standard output",
    )],
    statuses: "0 written; 3 a file cannot be read or written; 4 a file is refused, or the two do not go together",
    run,
};

fn run(session: &mut Session) -> Outcome<Status> {
    let names = session.args.files(2..=2, "FIRST and SECOND")?;
    let target = session
        .args
        .path("output")
        .ok_or_else(|| usage("-o OUT wanted"))?;
    let first = files::read(session.system, &names[0], LIMIT)?;
    let second = files::read(session.system, &names[1], LIMIT)?;
    for (name, card) in names.iter().zip([&first, &second]) {
        deny_state(name, card)?;
    }
    let file = sab::merge(&first.bytes, &second.bytes)
        .map_err(|merging| refused(&names, [&first, &second], merging))?;
    if is_standard(&target) {
        session.out.bytes(&file);
        return Ok(Status::Yes);
    }
    let of_both = of_library(&target, Case::File);
    let log = Log::read_file(&file).map_err(&of_both)?;
    let held = Log::read_file(&first.bytes).map_err(&of_both)?;
    files::create(session.system, &target, &file, Over::Never, &|back| {
        back == file
    })?;
    let both = Archive::of(&target, Form::Sab1, log, None)?;
    let of_first = held.records().len();
    let more = both.log.records().len() - of_first;
    session.out.object(|| {
        Object::new("merged")
            .text("file", shown(&target))
            .number("blocks", (file.len() / BLOCK) as u64)
            .number("first", of_first as u64)
            .number("more", more as u64)
    });
    session.out.object(|| both.object());
    session
        .out
        .line(format_args!("{}: {}", both.shown(), both.summary()));
    session.out.line(format_args!(
        "{} of {}, {more} more of {}",
        counted(of_first, "record"),
        shown(&names[0]),
        shown(&names[1])
    ));
    both.tell_otherwise(&mut session.out)?;
    Ok(Status::Yes)
}

const TOO_MANY: &str = "nothing is lost: keep both cards, together they hold everything; go on as under 11 \
                        (`sab explain 11`)";

const NOT_MERGED: &str = "sab pass brings the records of one file into the other; sab convert makes SAB1 of it, unless \
                          records are folded";

/// The library knows nothing of state files.
fn deny_state(name: &Path, card: &Bytes) -> Outcome<()> {
    if Form::of(&card.bytes) != Form::State {
        return Ok(());
    }
    let words = "is a state file of version 6: only cards of the form SAB1 merge";
    Err(Failure::Trouble(files::trouble(name, words).advise(NOT_MERGED)))
}

/// A refusal with the card at fault: by itself, or beside the other.
fn refused(names: &[PathBuf], read: [&Bytes; 2], merging: MergeRefusal) -> Refused {
    let MergeRefusal { refusal, file } = merging;
    let which = usize::from(file == 2);
    let (name, card) = (&names[which], read[which]);
    if Form::of(&card.bytes) == Form::Sab2 {
        let detail = "it has the form SAB2, and only cards of the form SAB1 merge";
        return Refused {
            todo: Some(NOT_MERGED.to_string()),
            ..Refused::new(name, refusal, Case::File, Some(detail.to_string()))
        };
    }
    let [Ok(first), Ok(second)] = read.map(|card| Log::read_file(&card.bytes)) else {
        let detail = why::of_file(&card.bytes, card.length, refusal);
        return Refused::new(name, refusal, Case::File, detail);
    };
    let (detail, todo) = match refusal.number {
        6 => {
            let detail = format!(
                "archive {} and archive {}",
                first.archive(),
                second.archive()
            );
            (Some(detail), None)
        }
        10 => (Some(twice_words(&held_otherwise(&first, &second))), None),
        11 => (Some(together(&first, &second)), Some(TOO_MANY.to_string())),
        _ => (None, None),
    };
    Refused {
        todo,
        ..Refused::new(name, refusal, Case::File, detail)
    }
}

/// How many records two cards hold together.
fn together(first: &Log, second: &Log) -> String {
    let more = second
        .records()
        .filter(|record| first.record(record.identity()).is_none())
        .count();
    let all = first.records().len() + more;
    format!("the two cards hold {} together", counted(all, "record"))
}
