//! `sab try`: what taking rows of blocks would do.

use super::meet::tell_change_of;
use super::take::Taken;
use super::{Command, Session};
use crate::archive::Archive;
use crate::failure::{Outcome, of_library};
use crate::numbers::Case;
use crate::out::{Status, shown};

/// `sab try`.
pub const COMMAND: Command = Command {
    name: "try",
    usage: &["try FILE ROW.."],
    summary: "say what taking rows of blocks would do, before a van leaves",
    page: "\
Says what sab take FILE ROW.. would do, and writes nothing: what each block brings,
how many blocks of each ROW would be taken and what stops it, the vector
afterwards, and which entries become disputed. FILE is only read, and may be - for
standard input, if no ROW is.

    $ sab pack card0.sab --for=card1.sab -o row
    row: 1 block, 1 record that card1.sab lacks
    $ sab try card1.sab row
    row: block 1: 1 new record: 0.2; 1 held already is equal
    row: 1 of 1 block would be taken
    card1.sab: seen 2 1 0 0 0 0 0 0
    card1.sab: newly disputed: trace 0.2 \"Gain\" by 1.1
    card1.sab: 1.1 acted and stands aside now, reason 15: unit 1 wanted to make the trace \"Gain\" in 0.1 \"Bench\" on 2025-03-05

An entry is newly disputed if it is in the tree afterwards and disputed there, and
was no disputed entry before.",
    options: &[],
    statuses: "0 all blocks would be taken; 1 stopped at a block; 3 a file cannot be read; \
               4 refused: the file, a row that is no row of blocks, or a number used twice (10)",
    run,
};

fn run(session: &mut Session) -> Outcome<Status> {
    let names = session.args.files(2..=usize::MAX, "FILE and ROW..")?;
    let archive = Archive::read(session.system, &names[0])?;
    let mut log = archive.log.clone();
    let rows = Taken::all(session, &mut log, &names[1..])?;
    rows.iter()
        .for_each(|row| row.tell(session, "would be taken"));
    let vector = log.vector().map_err(of_library(&names[0], Case::Taking))?;
    session
        .out
        .line(format_args!("{}: seen {vector}", shown(&names[0])));
    tell_change_of(session, &archive, &log, false)?;
    Ok(Status::no_if(rows.iter().any(|row| row.stop.is_some())))
}
