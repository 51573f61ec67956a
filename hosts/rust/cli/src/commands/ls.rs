//! `sab ls`: the entries of a folder by label.

use super::{Command, Session};
use crate::archive::Archive;
use crate::args::as_text;
use crate::failure::{Outcome, usage};
use crate::out::Status;
use crate::places::{Place, Places};
use crate::records::Story;
use sab::{Identity, Kind};
use std::path::PathBuf;

/// `sab ls`.
pub const COMMAND: Command = Command {
    name: "ls",
    usage: &["ls FILE [FOLDER]"],
    summary: "the entries of a folder, by label",
    page: "\
Prints the line of the listing of each entry of a folder, by label: the labels'
bytes decide, capitals as small letters, so that _ stands before all letters. FOLDER
is a path, as /Bench, or the identity of a folder; without it the root is meant.
What lies deeper is not printed.

    $ sab ls bench.sab /Bench
    trace 0.2 in 0.1 \"Gain \\\"A\\\"\" 2025-03-04 11111111111111111111111111111111 disputed",
    options: &[],
    statuses: "0 printed; 1 no such folder; 3 the file cannot be read; 4 it is refused",
    run,
};

fn run(session: &mut Session) -> Outcome<Status> {
    let (name, folder) = match session.args.words() {
        [name] => (PathBuf::from(name), Place::Identity(Identity::ROOT)),
        [name, folder] => {
            let folder = Place::read(as_text(folder, "FOLDER")?, "FOLDER")?;
            (PathBuf::from(name), folder)
        }
        _ => return Err(usage("one FILE wanted, and a FOLDER at the most")),
    };
    let archive = Archive::read(session.system, &name)?;
    let tree = archive.tree()?;
    let story = Story::new(&archive.log, &tree);
    let places = Places::of(&archive)?;
    session.out.object(|| archive.object());
    let folder = places.identity(&folder).and_then(|folder| {
        let entry = story.entry(folder);
        let is_folder = entry.is_some_and(|entry| entry.kind() == Kind::Folder);
        match folder.is_root() || is_folder {
            true => Ok(folder),
            false => Err(format!("no folder {folder} in the tree")),
        }
    });
    let folder = match folder {
        Ok(folder) => folder,
        Err(words) => {
            session.out.complain(Some(&name), words, None);
            return Ok(Status::No);
        }
    };
    for listed in places.index.entries_in(folder) {
        let identity = listed.identity();
        if let Some(entry) = story.entry(identity) {
            session.out.object(|| story.entry_object(entry));
        }
        if let Some(line) = places.line(identity) {
            session.out.line(line);
        }
    }
    Ok(Status::Yes)
}
