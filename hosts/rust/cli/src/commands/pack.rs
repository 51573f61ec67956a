//! `sab pack`: what another unit lacks, as a row of blocks to carry there.

use super::{Command, Session};
use crate::archive::Archive;
use crate::args::{Read, Usage, number, value};
use crate::blocks;
use crate::failure::{Failure, Outcome, Refused, of_library, usage};
use crate::files::{self, Over};
use crate::meeting::{deny_other_archive, deny_twice};
use crate::numbers::Case;
use crate::out::{Status, shown};
use crate::why::{self, counted};
use sab::{Asking, Block, Vector};
use std::path::Path;

/// `sab pack`.
pub const COMMAND: Command = Command {
    name: "pack",
    usage: &[
        "pack FILE --for=OTHER -o ROW",
        "pack FILE --seen=C0,C1,C2,C3,C4,C5,C6,C7 -o ROW",
    ],
    summary: "put what another unit lacks into a row of blocks",
    page: "\
Writes the blocks that FILE would hand out to the unit of the file OTHER, or to a
unit that told its vector, one behind the other into the new file ROW. That can be
carried or sent to where the other file is; sab take takes it there.

    $ sab pack card0.sab --for=card1.sab -o row
    row: 1 block, 1 record that card1.sab lacks

The row begins a record early at each unit that both have records of, so that the
taker compares these and notices a number that was used twice.",
    options: &[
        value(
            "for",
            None,
            "OTHER",
            "the file of the unit that will take the row",
        ),
        value(
            "seen",
            None,
            "COUNTS",
            "its vector, eight counts parted by commas",
        ),
        value(
            "output",
            Some('o'),
            "ROW",
            "the file to write; - is standard output",
        ),
    ],
    statuses: "0 written; 1 nothing is lacking, nothing written; 3 a file cannot be read or written; 4 refused",
    run,
};

fn run(session: &mut Session) -> Outcome<Status> {
    let names = session.args.files(1..=1, "one FILE")?;
    let target = session
        .args
        .path("output")
        .ok_or_else(|| usage("-o ROW wanted"))?;
    let other = session.args.path("for");
    let seen = session.args.text("seen")?.map(counts).transpose()?;
    let from = Archive::read(session.system, &names[0])?;
    let (row, lacked, whom) = match (other, seen) {
        (Some(other), None) => {
            let (row, lacked) = row_for(session, &from, &other)?;
            (row, lacked, shown(&other))
        }
        (None, Some(seen)) => {
            let (row, lacked) = row_from(&from, seen)?;
            (row, lacked, format!("seen {seen}"))
        }
        _ => return Err(usage("either --for=OTHER or --seen=COUNTS wanted")),
    };
    if lacked == 0 {
        session.out.line(format_args!(
            "{whom} lacks nothing of {}; nothing was written",
            from.shown()
        ));
        return Ok(Status::No);
    }
    let bytes: Vec<u8> = row.iter().flat_map(|block| *block.as_bytes()).collect();
    if files::is_standard(&target) {
        session.out.bytes(&bytes);
        return Ok(Status::Yes);
    }
    files::create(session.system, &target, &bytes, Over::Never, &|_| true)?;
    session.out.object(|| {
        crate::json::Object::new("packed")
            .text("file", shown(&target))
            .number("blocks", row.len() as u64)
            .number("records", lacked as u64)
    });
    session.out.line(format_args!(
        "{}: {}, {} that {whom} lacks",
        shown(&target),
        counted(row.len(), "block"),
        counted(lacked, "record")
    ));
    Ok(Status::Yes)
}

/// Eight counts.
fn counts(text: &str) -> Read<Vector> {
    let counts: Vec<u16> = text
        .split([',', ' '])
        .map(|count| number(count, 0..=u16::MAX, "--seen"))
        .collect::<Read<_>>()?;
    let counts: [u16; 8] = counts
        .try_into()
        .map_err(|_| Usage("--seen: eight counts wanted, as 2,1,0,0,0,0,0,0".to_string()))?;
    Ok(Vector::from(counts))
}

/// The row for a file: each block is taken by a copy of it.
fn row_for(session: &Session, from: &Archive, other: &Path) -> Outcome<(Vec<Block>, usize)> {
    let to = Archive::read(session.system, other)?;
    deny_other_archive(other, &from.log, &to.log)?;
    deny_twice(other, &from.log, &to.log)?;
    let mut copy = to.log.clone();
    let refused = of_library(other, Case::Taking);
    let mut asking = Asking::careful(&copy).map_err(&refused)?;
    let mut row = Vec::new();
    loop {
        let block = from.log.hand_out(&asking.vector()).map_err(&refused)?;
        let more = asking.take(&mut copy, block).map_err(|refusal| {
            let detail = why::of_block(block.as_ref(), &copy, refusal);
            Failure::Refused(Refused::new(other, refusal, Case::Taking, detail))
        })?;
        if !more {
            let lacked = copy.records().len() - to.log.records().len();
            return Ok((row, lacked));
        }
        row.push(block);
    }
}

/// The row for a vector: what each block has is counted as held.
fn row_from(from: &Archive, seen: Vector) -> Outcome<(Vec<Block>, usize)> {
    let mut asked = seen.lowered();
    let (mut row, mut lacked) = (Vec::new(), 0);
    loop {
        let block = from
            .log
            .hand_out(&asked)
            .map_err(of_library(&from.name, Case::File))?;
        if block.is_empty() {
            return Ok((row, lacked));
        }
        let mut counts = *asked.counts();
        for identity in blocks::identities(&block) {
            counts[usize::from(identity.unit().number())] = identity.number();
            lacked += usize::from(seen.lacks(identity));
        }
        asked = Vector::from(counts);
        row.push(block);
    }
}
