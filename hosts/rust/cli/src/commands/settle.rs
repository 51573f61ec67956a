//! `sab settle`: an aside is settled.

use super::{Command, Session, act};
use crate::args::{BACKUP, DATE, DRY_RUN, OWN_UNIT};
use crate::failure::{Outcome, usage};
use crate::out::Status;
use std::path::PathBuf;

/// `sab settle`.
pub const COMMAND: Command = Command {
    name: "settle",
    usage: &["settle FILE RECORD --own-unit=U"],
    summary: "say that an aside was looked after",
    page: "\
Makes a record that settles an aside: someone has looked after it, and the entry
that it marks is no longer disputed by it. The same as sab act FILE --own-unit=U
settle RECORD; sab help act says for which files this is.",
    options: &[OWN_UNIT, DATE, DRY_RUN, BACKUP],
    statuses: "0 settled; 3 the file cannot be read or written; 4 refused: nothing of this identity stands aside",
    run,
};

fn run(session: &mut Session) -> Outcome<Status> {
    let [name, record] = session.args.words() else {
        return Err(usage("FILE and RECORD wanted"));
    };
    let (name, rest) = (PathBuf::from(name), vec![record.clone()]);
    act::make(session, &name, "settle", &rest)
}
