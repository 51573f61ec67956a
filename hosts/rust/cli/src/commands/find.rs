//! `sab find`: the one entry of a path, a label or an identity.

use super::{Command, Session};
use crate::archive::Archive;
use crate::args::as_text;
use crate::failure::{Outcome, usage};
use crate::out::Status;
use crate::places::{Place, Places};
use crate::records::Story;
use sab::Identity;
use std::path::PathBuf;

/// `sab find`.
pub const COMMAND: Command = Command {
    name: "find",
    usage: &["find FILE ENTRY", "find FILE FOLDER LABEL"],
    summary: "the one entry of a path, or of a label in a folder",
    page: "\
Prints the line of the listing of one entry. ENTRY is a path, as /Bench/Gain, or an
identity, as 0.2. With FOLDER, a path or an identity, and LABEL it is the entry of
that folder that has the label; so an old label with a stroke in it is found, which
no path can name. The root is 0.0 or /. Labels are the same if they differ in
capitals and small letters, A to Z, alone.

    $ sab find bench.sab '/bench/gain \"a\"'
    trace 0.2 in 0.1 \"Gain \\\"A\\\"\" 2025-03-04 11111111111111111111111111111111 disputed
    $ sab find bench.sab 0.1 Noise
    sab: bench.sab: no entry \"Noise\" in 0.1",
    options: &[],
    statuses: "0 found; 1 there is none; 3 the file cannot be read; 4 it is refused",
    run,
};

fn run(session: &mut Session) -> Outcome<Status> {
    let (name, place, label) = match session.args.words() {
        [name, entry] => (name, Place::read(as_text(entry, "ENTRY")?, "ENTRY")?, None),
        [name, folder, label] => {
            let folder = Place::read(as_text(folder, "FOLDER")?, "FOLDER")?;
            (name, folder, Some(as_text(label, "LABEL")?.to_string()))
        }
        _ => {
            return Err(usage(
                "one FILE wanted, and an ENTRY, or a FOLDER and a LABEL",
            ));
        }
    };
    let name = PathBuf::from(name);
    let archive = Archive::read(session.system, &name)?;
    let tree = archive.tree()?;
    let story = Story::new(&archive.log, &tree);
    let places = Places::of(&archive)?;
    let found = places.identity(&place).and_then(|place| match &label {
        None => Ok(place),
        Some(label) => places.entry(place, label),
    });
    let found = found.and_then(|identity| entry(&places, identity));
    match found {
        Ok((identity, line)) => {
            if let Some(entry) = story.entry(identity) {
                session.out.object(|| story.entry_object(entry));
            }
            session.out.line(line);
            Ok(Status::Yes)
        }
        Err(words) => {
            session.out.complain(Some(&name), words, None);
            Ok(Status::No)
        }
    }
}

/// An entry of the tree with its line.
fn entry(places: &Places, identity: Identity) -> Result<(Identity, &str), String> {
    let none = || match identity.is_root() {
        true => "the root is no entry".to_string(),
        false => format!("no entry {identity} in the tree"),
    };
    let line = places.line(identity).ok_or_else(none)?;
    Ok((identity, line))
}
