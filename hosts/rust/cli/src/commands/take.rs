//! `sab take`: a file takes rows of blocks.

use super::meet::{tell_change, tell_dry_run, tell_open};
use super::{Command, Session};
use crate::archive::{LIMIT, Own};
use crate::args::{BACKUP, DRY_RUN};
use crate::failure::{Failure, Outcome, Refused, of_library};
use crate::files;
use crate::json::Object;
use crate::meeting::{self, Given, given_words};
use crate::numbers::Case;
use crate::out::{Status, shown};
use crate::why::{self, counted};
use sab::{Identity, Log, Refusal, Row};
use std::path::{Path, PathBuf};

/// `sab take`.
pub const COMMAND: Command = Command {
    name: "take",
    usage: &["take FILE ROW.. [-n] [--backup]"],
    summary: "take rows of blocks, as pack wrote them",
    page: "\
FILE takes the blocks of each ROW in turn, each wholly or not at all, up to the
first that is refused. What was taken before that stays, and the file is replaced.
A ROW is a file that sab pack wrote, or any archive file, whose blocks are then
taken; - is standard input.

    $ sab pack card0.sab --for=card1.sab -o row
    row: 1 block, 1 record that card1.sab lacks
    $ sab take card1.sab row
    row: block 1: 1 new record: 0.2; 1 held already is equal
    row: 1 of 1 block taken
    card1.sab: seen 2 1 0 0 0 0 0 0
    card1.sab: newly disputed: trace 0.2 \"Gain\" by 1.1
    card1.sab: 1.1 acted and stands aside now, reason 15: unit 1 wanted to make the trace \"Gain\" in 0.1 \"Bench\" on 2025-03-05
    1 aside open: sab asides card1.sab tells what to do

If a record is held with other bytes (10), nothing is written at all: a unit used
a number twice, and that has to be looked after first.",
    options: &[
        DRY_RUN,
        BACKUP,
    ],
    statuses: "0 all blocks are taken; 1 stopped at a block; 3 a file cannot be read or written; \
               4 refused: the file, a row that is no row of blocks, or a number used twice (10)",
    run,
};

fn run(session: &mut Session) -> Outcome<Status> {
    let names = session.args.files(2..=usize::MAX, "FILE and ROW..")?;
    let own = Own::open(session.system, &names[0])?;
    let mut log = own.archive.log.clone();
    let rows = Taken::all(session, &mut log, &names[1..])?;
    if !session.args.has("dry-run") {
        own.replace(&log, session.args.has("backup"))?;
    }
    rows.iter().for_each(|row| row.tell(session, "taken"));
    let vector = log.vector().map_err(of_library(&names[0], Case::Taking))?;
    session
        .out
        .line(format_args!("{}: seen {vector}", shown(&names[0])));
    tell_change(session, &own, &log, false)?;
    tell_open(session, &[(&names[0], &log)])?;
    tell_dry_run(session);
    Ok(Status::no_if(rows.iter().any(|row| row.stop.is_some())))
}

/// A row that was taken, as far as it went.
pub struct Taken {
    name: PathBuf,
    blocks: usize,
    taken: Vec<Given>,
    /// What stopped it.
    pub stop: Option<Refused>,
    /// The entries that became disputed.
    pub disputed: Vec<Identity>,
}

impl Taken {
    /// Rows taken one after another, up to the first that stops. A number that was
    /// used twice refuses all.
    pub fn all(session: &Session, log: &mut Log, names: &[PathBuf]) -> Outcome<Vec<Taken>> {
        let mut rows: Vec<Taken> = Vec::new();
        for name in names {
            let row = Taken::take(session, log, name)?;
            match row.stop {
                Some(refused) if refused.refusal.number == 10 => {
                    return Err(Failure::Refused(refused));
                }
                _ => rows.push(row),
            }
            if rows.iter().any(|row| row.stop.is_some()) {
                break;
            }
        }
        Ok(rows)
    }

    /// The row is tried by the library, and the log becomes the one that it would
    /// be.
    fn take(session: &Session, log: &mut Log, name: &Path) -> Outcome<Taken> {
        let read = files::read(session.system, name, LIMIT)?;
        let no_row = |refusal: Refusal| {
            let detail = why::of_file(&read.bytes, read.length, refusal);
            Failure::Refused(Refused::new(name, refusal, Case::File, detail))
        };
        let row = Row::try_from(read.bytes.as_slice()).map_err(no_row)?;
        if row.is_empty() {
            return Err(no_row(Refusal::new(2)));
        }
        let trial = log.try_row(&row).map_err(of_library(name, Case::Taking))?;
        let mut taken = meeting::given(log, &row);
        taken.truncate(trial.row.taken.into());
        *log = trial.log;
        let stop = trial.row.stopped.map(|refusal| {
            let refusal = Refusal::new(refusal.number);
            let place = format!("block {} of the row", taken.len() + 1);
            let block = row.blocks().nth(taken.len());
            let detail = block.and_then(|block| why::of_block(block.as_ref(), log, refusal));
            let detail = match detail {
                Some(detail) => format!("{place}: {detail}"),
                None => place,
            };
            Refused::new(name, refusal, Case::Taking, Some(detail))
        });
        Ok(Taken {
            name: name.to_path_buf(),
            blocks: row.len(),
            taken,
            stop,
            disputed: trial.disputed,
        })
    }

    /// Says what the row brought; `done` is taken, or would be taken.
    pub fn tell(&self, session: &mut Session, done: &str) {
        let name = shown(&self.name);
        session.out.object(|| {
            let stop = self.stop.as_ref().map_or(0, |stop| stop.refusal.number);
            Object::new("row")
                .text("file", &name)
                .number("blocks", self.blocks as u64)
                .number("taken", self.taken.len() as u64)
                .number("stop", stop)
                .texts("newly_disputed", &self.disputed)
        });
        for (at, given) in self.taken.iter().enumerate() {
            let words = given_words(given);
            session
                .out
                .line(format_args!("{name}: block {}: {words}", at + 1));
        }
        session.out.line(format_args!(
            "{name}: {} of {} {done}",
            self.taken.len(),
            counted(self.blocks, "block")
        ));
        if let Some(stop) = &self.stop {
            stop.tell(&mut session.out);
        }
    }
}
