//! `sab meet`: blocks passed both ways until both files hold the same.

use super::{Command, Session};
use crate::archive::{Archive, Own};
use crate::args::{BACKUP, DRY_RUN, Opt, value};
use crate::change::Change;
use crate::failure::{Failure, Outcome, Refused, of_library, usage};
use crate::files;
use crate::json::Object;
use crate::meeting::{End, Passed, deny_other_archive, deny_twice, pass, tell_blocks};
use crate::numbers::Case;
use crate::out::{Ink, Status, for_shell, shown};
use crate::why::counted;
use sab::{Comparison, Log};
use std::path::{Path, PathBuf};

/// Options of `meet`, `pass` and `take`.
pub const OPTIONS: &[Opt] = &[
    DRY_RUN,
    BACKUP,
    value(
        "max-blocks",
        None,
        "N",
        "stop after so many blocks with new records",
    ),
];

/// `sab meet`.
pub const COMMAND: Command = Command {
    name: "meet",
    usage: &["meet FILE FILE [-n] [--backup] [--max-blocks=N]"],
    summary: "pass blocks both ways until both files hold the same (checklist C)",
    page: "\
Each file takes from the other what it lacks, in blocks of up to six records; then
both hold the same records. There is a line for each block, then the vector of
both, and for each file what the meeting changed: which entries are disputed now,
which records acted and now stand aside, or the other way round.

    $ sab meet card0.sab card1.sab
    card0.sab -> card1.sab  block 1: 1 new record: 0.2; 1 held already is equal
    card1.sab -> card0.sab  block 1: 1 new record: 1.1; 1 held already is equal
    both: seen 2 1 0 0 0 0 0 0
    card0.sab: newly disputed: trace 0.2 \"Gain\" by 1.1
    card0.sab: 1.1 came and stands aside, reason 15: unit 1 wanted to make the trace \"Gain\" in 0.1 \"Bench\" on 2025-03-05
    card1.sab: newly disputed: trace 0.2 \"Gain\" by 1.1
    card1.sab: 1.1 acted and stands aside now, reason 15: unit 1 wanted to make the trace \"Gain\" in 0.1 \"Bench\" on 2025-03-05
    1 aside open: sab asides card0.sab tells what to do

The meeting is careful. Records that both hold are compared, byte for byte, before
anything is passed, and each side asks with every count lowered by one, so that
the library compares the last record of each unit again. If a unit used a number
twice, that is refused with 10, and neither file is changed.

Both files are locked, all work is done in memory, and each file is replaced as a
whole. A cut at any moment leaves each file as it was or as it will be; run the
same command again to go on. If nothing is lacking, nothing is written.",
    options: OPTIONS,
    statuses: "0 both hold the same; 1 stopped, by --max-blocks or by a full log (11); \
               3 a file cannot be read or written; 4 refused",
    run,
};

fn run(session: &mut Session) -> Outcome<Status> {
    let names = session.args.files(2..=2, "two FILEs")?;
    let mut room = room(session)?;
    deny_one_file(session, &names[0], &names[1])?;
    let first = Own::open(session.system, &names[0])?;
    let second = Own::open(session.system, &names[1])?;
    deny_both(&first, &second)?;

    let (mut one, mut other) = (first.archive.log.clone(), second.archive.log.clone());
    let to_second = pass(&one, &mut other, &mut room);
    let to_first = pass(&other, &mut one, &mut room);
    deny_refused(&names[1], &to_second)?;
    deny_refused(&names[0], &to_first)?;
    if !session.args.has("dry-run") {
        let backup = session.args.has("backup");
        second.replace(&other, backup)?;
        if let Err(failure) = first.replace(&one, backup) {
            tell_half(session, &second, &other);
            return Err(failure);
        }
    }
    let (name_one, name_other) = (shown(&names[0]), shown(&names[1]));
    tell_blocks(&mut session.out, &name_one, &name_other, &to_second);
    tell_blocks(&mut session.out, &name_other, &name_one, &to_first);
    let status = tell_end(session, &names[1], &to_second);
    let status = status.max(tell_end(session, &names[0], &to_first));
    let equal = tell_vectors(session, (&names[0], &one), (&names[1], &other))?;
    tell_change(session, &first, &one, equal)?;
    tell_change(session, &second, &other, equal)?;
    tell_open(session, &[(&names[0], &one), (&names[1], &other)])?;
    tell_dry_run(session);
    Ok(status)
}

/// Says that the second file was replaced, though the first cannot be.
fn tell_half(session: &mut Session, second: &Own, log: &Log) {
    if *log != second.archive.log {
        let words = "was replaced; the other file cannot be";
        let advice = Some("nothing is lost: run the same command again to go on");
        session
            .out
            .complain(Some(&second.archive.name), words, advice);
    }
}

/// How many blocks with new records may be taken.
pub fn room(session: &Session) -> Outcome<usize> {
    let given = session.args.number("max-blocks", 0..=usize::MAX)?;
    Ok(given.unwrap_or(usize::MAX))
}

/// Two names must not be one file.
pub fn deny_one_file(session: &Session, one: &Path, other: &Path) -> Outcome<()> {
    let id = |path: &Path| {
        let named = !files::is_standard(path);
        let facts = named.then(|| session.system.facts(path).ok()).flatten();
        facts.map(|facts| facts.id)
    };
    let (first, second) = (id(one), id(other));
    if first.is_some() && first == second {
        return Err(usage(format!(
            "{} and {} are one file",
            shown(one),
            shown(other)
        )));
    }
    Ok(())
}

/// Files that cannot meet.
fn deny_both(first: &Own, second: &Own) -> Outcome<()> {
    let (one, other) = (&first.archive, &second.archive);
    deny_other_archive(&other.name, &one.log, &other.log)?;
    deny_twice(&other.name, &one.log, &other.log)?;
    Ok(())
}

/// The refusal that stopped a passing, if one did.
fn stop(to: &Path, passed: &Passed) -> Option<Refused> {
    let End::Stopped(refusal, detail) = &passed.end else {
        return None;
    };
    Some(Refused::new(to, *refusal, Case::Taking, detail.clone()))
}

/// A refusal ends the command, and nothing is written; but not that of a full log,
/// a list or a base, which does not keep the other file from taking.
pub fn deny_refused(to: &Path, passed: &Passed) -> Outcome<()> {
    match stop(to, passed) {
        Some(refused) if !refused.refusal.is_one_sided() => Err(Failure::Refused(refused)),
        _ => Ok(()),
    }
}

/// Says what stopped a passing, a full log, a list, a base or a limit; no if something
/// did.
pub fn tell_end(session: &mut Session, to: &Path, passed: &Passed) -> Status {
    if let Some(refused) = stop(to, passed) {
        refused.tell(&mut session.out);
        return Status::No;
    }
    if matches!(passed.end, End::Cut) {
        let words = "stopped by --max-blocks; more is lacking";
        let advice = Some("run the same command again to go on");
        session.out.complain(Some(to), words, advice);
        return Status::No;
    }
    Status::Yes
}

/// Says what both hold; whether that is the same, by the library.
fn tell_vectors(session: &mut Session, one: (&Path, &Log), other: (&Path, &Log)) -> Outcome<bool> {
    let first = one.1.vector().map_err(of_library(one.0, Case::Taking))?;
    let second = other
        .1
        .vector()
        .map_err(of_library(other.0, Case::Taking))?;
    let equal = first.compare(&second) == Comparison::Identical;
    if equal {
        let both = session.out.ink(Ink::Well, "both");
        session.out.line(format_args!("{both}: seen {first}"));
    } else {
        for (name, vector) in [(one.0, first), (other.0, second)] {
            session
                .out
                .line(format_args!("{}: seen {vector}", shown(name)));
        }
    }
    Ok(equal)
}

/// Says what a file shows now.
pub fn tell_change(session: &mut Session, own: &Own, after: &Log, equal: bool) -> Outcome<()> {
    tell_change_of(session, &own.archive, after, equal)
}

/// Says what a file would show.
pub fn tell_change_of(
    session: &mut Session,
    archive: &Archive,
    after: &Log,
    equal: bool,
) -> Outcome<()> {
    let name = &archive.name;
    let refused = of_library(name, Case::Taking);
    let change = Change::between(&archive.log, after).map_err(&refused)?;
    let vector = after.vector().map_err(&refused)?;
    session.out.object(|| {
        let object = Object::new("meeting")
            .text("file", shown(name))
            .truth("equal", equal)
            .numbers("vector", vector.counts());
        change.put(object)
    });
    change
        .tell(&mut session.out, &shown(name), after)
        .map_err(&refused)
}

/// Says where open asides can be read, if there are any.
pub fn tell_open(session: &mut Session, files: &[(&PathBuf, &Log)]) -> Outcome<()> {
    for (name, log) in files {
        let tree = log.show().map_err(of_library(name, Case::Taking))?;
        let open = tree.asides().filter(|aside| aside.is_open()).count();
        if open > 0 {
            let open = counted(open, "aside");
            let name = for_shell(name);
            session.out.line(format_args!(
                "{open} open: sab asides {name} tells what to do"
            ));
            return Ok(());
        }
    }
    Ok(())
}

/// Says that nothing was written, if so.
pub fn tell_dry_run(session: &mut Session) {
    if session.args.has("dry-run") {
        session.out.line("nothing was written (-n)");
    }
}
