//! `sab mv`: an entry is moved to another folder.

use super::act::{Operation, Wanted};
use super::{Command, Session, act};
use crate::archive::{Archive, Own};
use crate::args::{BACKUP, DATE, DRY_RUN, OWN_UNIT, as_text};
use crate::failure::{Outcome, usage};
use crate::out::Status;
use crate::places::{Place, Places};
use sab::Identity;
use std::path::PathBuf;

/// `sab mv`.
pub const COMMAND: Command = Command {
    name: "mv",
    usage: &["mv FILE ENTRY FOLDER [LABEL] --own-unit=U"],
    summary: "move an entry to another folder",
    page: "\
Makes a record that moves an entry, a trace or a folder with all that is in it, to
FOLDER. ENTRY and FOLDER are paths, as /Bench/Gain, or identities, as 0.2; the root
is / or 0.0. Without LABEL the entry keeps its label. A folder cannot go into itself
or below itself (25). The same as sab act FILE --own-unit=U move ENTRY LABEL
--in=FOLDER; sab help act says for which files this is.

    $ sab new -q office.sab --archive=12 --unit=7
    $ sab act office.sab --own-unit=7 make-folder Bench --date=2025-03-03
    7.1: unit 7 made the folder \"Bench\" in the root on 2025-03-03
    $ sab act office.sab --own-unit=7 make-folder Roof --date=2025-03-03
    7.2: unit 7 made the folder \"Roof\" in the root on 2025-03-03
    $ sab mv office.sab /Roof /Bench --own-unit=7 --date=2025-03-04
    7.3: unit 7 moved 7.2 \"Roof\" to 7.1 \"Bench\" on 2025-03-04

An analyser before version 5 does not know moves and refuses a card that has one
with 7: change all units of the archive over first.",
    options: &[OWN_UNIT, DATE, DRY_RUN, BACKUP],
    statuses: "0 moved; 1 a path names no entry; 3 the file cannot be read or written; 4 refused: the move does not fit",
    run,
};

fn run(session: &mut Session) -> Outcome<Status> {
    let (name, entry, folder, label) = match session.args.words() {
        [name, entry, folder] => (name, entry, folder, None),
        [name, entry, folder, label] => {
            let label = as_text(label, "LABEL")?.to_string();
            (name, entry, folder, Some(label))
        }
        _ => {
            return Err(usage(
                "FILE, ENTRY and FOLDER wanted, and a LABEL at the most",
            ));
        }
    };
    let entry = Place::read(as_text(entry, "ENTRY")?, "ENTRY")?;
    let folder = Place::read(as_text(folder, "FOLDER")?, "FOLDER")?;
    let name = PathBuf::from(name);
    let (unit, date) = (act::own_unit(session)?, act::date(session)?);
    let own = Own::open(session.system, &name)?;
    let places = Places::of(&own.archive)?;
    let found = places
        .identity(&entry)
        .and_then(|entry| Ok((entry, places.identity(&folder)?)));
    match found {
        Ok((entry, folder)) => {
            let label = match label {
                Some(label) => label,
                None => label_of(&own.archive, entry)?,
            };
            let operation = Operation::Move(entry, folder, label);
            act::made(session, &own, unit, &Wanted { operation, date })
        }
        Err(words) => {
            session.out.complain(Some(&name), words, None);
            Ok(Status::No)
        }
    }
}

/// The label that an entry has. One that is not there is moved under the label of
/// its make, or under any: that it is not there is the library's answer.
fn label_of(archive: &Archive, entry: Identity) -> Outcome<String> {
    let tree = archive.tree()?;
    let made = || archive.log.record(entry)?.label();
    let label = tree.entry(entry).map(|entry| entry.label()).or_else(made);
    Ok(label.unwrap_or("?").to_string())
}
