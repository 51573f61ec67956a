//! `sab asides`: what stands aside, and what to do.

use super::{Command, Session};
use crate::archive::Archive;
use crate::args::flag;
use crate::failure::Outcome;
use crate::out::{Ink, Status};
use crate::records::{Story, state};

/// `sab asides`.
pub const COMMAND: Command = Command {
    name: "asides",
    usage: &["asides FILE [--open] [--exit-code]"],
    summary: "what stands aside, and what to do about it (checklist D)",
    page: "\
A record that does not fit the tree is kept and stands aside, at every unit alike.
For each: who made it, what and when, against which entry it stands, what is at
stake, and what to do. Open ones come first; an aside is open until someone
settles it.

    $ sab asides bench.sab
    1 aside, 1 open
    1.1  open  reason 15
         unit 1 wanted to make the trace \"Gain \\\"A\\\"\" in 0.1 \"Bench\" on 2025-03-05,
         but that folder had an entry of this label: 0.2 \"Gain \\\"A\\\"\" of unit 0, 2025-03-04
         work at stake: no trace of the tree has its mark
         look at both; make it again under another label, or store to 0.2; then settle 1.1

Settling is done at an analyser, by its own unit; or, for an archive whose only
home is this machine, by sab settle.",
    options: &[
        flag("open", None, "leave out the settled ones"),
        flag("exit-code", None, "status 1 if one is open"),
    ],
    statuses: "0 printed; 1 with --exit-code, one is open; 3 the file cannot be read; 4 it is refused",
    run,
};

fn run(session: &mut Session) -> Outcome<Status> {
    let names = session.args.files(1..=1, "one FILE")?;
    let only_open = session.args.has("open");
    let archive = Archive::read(session.system, &names[0])?;
    let tree = archive.tree()?;
    let story = Story::new(&archive.log, &tree);
    let totals = story.totals();
    session.out.object(|| archive.object());
    session.out.line(totals.aside_words());
    for aside in story.asides() {
        if only_open && !aside.is_open() {
            continue;
        }
        session.out.object(|| story.aside_object(aside));
        let told = story.told(aside);
        let identity = aside.identity().to_string();
        let ink = if aside.is_open() {
            Ink::Alarm
        } else {
            Ink::Well
        };
        let state = session.out.ink(ink, state(aside));
        let indent = " ".repeat(identity.len() + 2);
        session.out.line(format_args!(
            "{identity}  {state}  reason {}",
            aside.reason()
        ));
        session.out.line(format_args!("{indent}{},", told.did));
        session.out.line(format_args!("{indent}{}", told.because));
        if aside.is_open() {
            session
                .out
                .line(format_args!("{indent}{}", told.stake.words()));
        }
        session.out.line(format_args!("{indent}{}", told.todo));
    }
    Ok(Status::no_if(
        session.args.has("exit-code") && totals.open > 0,
    ))
}
