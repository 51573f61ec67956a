//! `sab check`: is a file good?

use super::{Command, Session};
use crate::archive::{Archive, Form, LIMIT, judge};
use crate::args::flag;
use crate::blocks::{ROWS, Whole, identities, judge_alone, summary};
use crate::failure::{Outcome, refusal_words};
use crate::files::{self, is_standard, left_over};
use crate::json::Object;
use crate::numbers::Case;
use crate::out::{Ink, Status, shown};
use crate::why;
use sab::raw::BLOCK;
use sab::{Log, Unit};
use std::path::Path;

/// `sab check`.
pub const COMMAND: Command = Command {
    name: "check",
    usage: &["check FILE.. [--blocks]"],
    summary: "is the file good? (checklist A)",
    page: "\
Reads each file through all checks of the library and says in a line whether it
is good, with archive, unit, count of records and vector. A refused file is told
on standard error, as number and place, in words with the bytes at fault, and
with what to do next.

    $ sab check bench.sab
    bench.sab: good: SAB1, archive 7, unit 0, 3 records, seen 2 1 0 0 0 0 0 0

    $ sab check damaged.sab
    sab: damaged.sab: refused 4 at 0: a sum differs: some byte of the block changed (block 0, bytes 0 to 511: its sums are 10633 44253, due are 10632 44085)
         copy again; if it stays, the card is worn: take another unit's card, since every unit holds the records it has heard of; `sab salvage` takes the good blocks out of a damaged one

With --blocks there is a line for each 512 bytes, each judged by itself, before
the line of the file; so one sees how much of a damaged card is whole. sab
salvage makes a file of what is whole.

A good file that reads otherwise than before version 4, when capitals were told
from small letters in labels, has a second line with the records that make the
difference; it stays good. A file with moves has a line that says how many: an
analyser before version 5 does not know them and refuses the file.

The file may have either form. Of the form SAB2, which sab fold writes and sab
convert makes, it is said too how many records are folded and which units are
listed. From 400 records on that are not folded, and always of SAB2, a line says how
many places are free; sab fold frees some.

A file that a cut left beside this one while it was being replaced is named too;
it can be removed.",
    options: &[flag("blocks", None, "judge each block by itself too")],
    statuses: "0 all are good; 3 a file cannot be read; 4 a file is refused",
    run,
};

fn run(session: &mut Session) -> Outcome<Status> {
    let names = session.args.files(1..=usize::MAX, "FILE..")?;
    let mut worst = Status::Yes;
    for name in &names {
        let status = match check(session, name) {
            Ok(()) => Status::Yes,
            Err(failure) => failure.tell(COMMAND.name, &mut session.out),
        };
        worst = worst.max(status);
        tell_left_over(session, name);
    }
    Ok(worst)
}

fn check(session: &mut Session, name: &Path) -> Outcome<()> {
    let read = files::read(session.system, name, LIMIT)?;
    if session.args.has("blocks") {
        tell_blocks(session, name, &read.bytes);
    }
    let log = judge(name, &read.bytes, read.length)?;
    let archive = Archive::of(name, Form::of(&read.bytes), log, read.id)?;
    session.out.object(|| archive.object());
    let good = session.out.ink(Ink::Well, "good");
    let line = format!("{}: {good}: {}", archive.shown(), archive.summary());
    session.out.line(line);
    archive.tell_room(&mut session.out);
    archive.tell_moves(&mut session.out)?;
    archive.tell_otherwise(&mut session.out)
}

fn tell_blocks(session: &mut Session, name: &Path, bytes: &[u8]) {
    for (place, block) in bytes.chunks(BLOCK).enumerate() {
        let first = place * BLOCK;
        let last = first + block.len() - 1;
        let judged = judge_alone(block);
        session.out.object(|| {
            let object = Object::new("state")
                .text("file", shown(name))
                .number("block", place as u64)
                .number(
                    "number",
                    judged.as_ref().err().map_or(0, |refusal| refusal.number),
                );
            match &judged {
                Ok(Whole::Records(block)) => object
                    .number("archive", block.archive())
                    .number("unit", block.sender())
                    .texts("records", identities(block)),
                _ => object,
            }
        });
        let words = match &judged {
            Ok(Whole::Records(block)) => format!("whole: {}", summary(block)),
            Ok(Whole::Rows) => format!("whole: {ROWS}"),
            Err(refusal) => {
                let detail = why::of_block(block, &Log::start(0, Unit::ALL[0]), *refusal);
                let words = refusal_words(*refusal, Case::Taking, detail.as_deref());
                session.out.ink(Ink::Alarm, words)
            }
        };
        session.out.line(format_args!(
            "{}: block {place}, bytes {first} to {last}: {words}",
            shown(name)
        ));
    }
}

fn tell_left_over(session: &mut Session, name: &Path) {
    if is_standard(name) {
        return;
    }
    for file in left_over(session.system, name) {
        session.out.complain(
            Some(&file),
            "left by a cut while the file beside it was being replaced",
            Some("if no sab is at work on that file now, it can be removed"),
        );
    }
}
