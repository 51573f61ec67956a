//! Archive files: read and judged by the library.

use crate::failure::{Failure, Outcome, Refused, of_library};
use crate::files::{self, Bytes, Held, Over};
use crate::json::Object;
use crate::numbers::Case;
use crate::out::{Out, shown};
use crate::records::Story;
use crate::state::{self, Fault};
use crate::system::System;
use crate::why;
use sab::{Answer, Log, Tree, Units, Vector, raw};
use std::fmt;
use std::path::{Path, PathBuf};

/// A byte more than the longest file, of whichever form: who has read so many knows
/// that it is refused.
pub const LIMIT: usize = raw::SAB2 + 1;

/// How many records that are not folded a log holds.
pub const ROOM: usize = 512;

/// Records from which on a log is said to fill.
const FEW: usize = 400;

/// The form of an archive file.
#[derive(Clone, Copy, Debug, PartialEq, Eq)]
pub enum Form {
    /// Records alone.
    Sab1,
    /// List and base, then records.
    Sab2,
    /// A state file, as version 6 wrote what SAB1 cannot hold.
    State,
}

impl Form {
    /// The form that a file's first bytes choose.
    pub fn of(bytes: &[u8]) -> Form {
        match sab::Form::of(bytes) {
            _ if state::is_state(bytes) => Form::State,
            sab::Form::Sab1 => Form::Sab1,
            sab::Form::Sab2 => Form::Sab2,
        }
    }

    /// The form in which a log goes into the place of such a file: its own, where
    /// that loses nothing.
    pub fn keeping(self, log: &Log) -> Form {
        match self {
            Form::Sab1 if !needs_sab2(log) => Form::Sab1,
            _ => Form::Sab2,
        }
    }
}

impl fmt::Display for Form {
    fn fmt(&self, f: &mut fmt::Formatter<'_>) -> fmt::Result {
        f.pad(match self {
            Form::Sab1 => "SAB1",
            Form::Sab2 => "SAB2",
            Form::State => "SABS",
        })
    }
}

/// SAB1 would lose something of a log: records are folded, or its list is short.
fn needs_sab2(log: &Log) -> bool {
    !log.base().is_empty() || log.base().units() != Units::ALL
}

/// An archive file that was accepted.
pub struct Archive {
    /// Its name, as it was given.
    pub name: PathBuf,
    /// Its form.
    pub form: Form,
    /// Its records, with list and base.
    pub log: Log,
    /// How many records of each unit.
    pub vector: Vector,
    /// Which file it is, if it has a name.
    pub id: Option<(u64, u64)>,
}

/// The library's answer to a file's bytes, with what was wrong with them.
pub fn judge(name: &Path, bytes: &[u8], length: Option<u64>) -> Outcome<Log> {
    if state::is_state(bytes) {
        return judge_state(name, bytes);
    }
    Log::read_file(bytes).map_err(|refusal| {
        let detail = why::of_file(bytes, length, refusal);
        Failure::Refused(Refused::new(name, refusal, Case::File, detail))
    })
}

/// A state file that was cut or changed is no file of the library's.
fn judge_state(name: &Path, bytes: &[u8]) -> Outcome<Log> {
    let no_good = |words: &str| {
        let advice = "copy it again; if it stays, take the backup, or another unit's card";
        Failure::Trouble(files::trouble(name, words).advise(advice))
    };
    state::read(bytes).map_err(|fault| match fault {
        Fault::Length => no_good("is a state file that was cut short, or has something behind it"),
        Fault::Sum => no_good("is a state file whose sum differs: some byte of it changed"),
        Fault::Refused(refusal) => {
            Failure::Refused(Refused::new(name, refusal, Case::File, None))
        }
    })
}

impl Archive {
    /// Of a log that was read from a file of a form.
    pub fn of(name: &Path, form: Form, log: Log, id: Option<(u64, u64)>) -> Outcome<Archive> {
        let vector = log.vector().map_err(of_library(name, Case::File))?;
        Ok(Archive {
            name: name.to_path_buf(),
            form,
            log,
            vector,
            id,
        })
    }

    /// Reads an archive file.
    pub fn read(system: &dyn System, name: &Path) -> Outcome<Archive> {
        let Bytes { bytes, length, id } = files::read(system, name, LIMIT)?;
        let log = judge(name, &bytes, length)?;
        Archive::of(name, Form::of(&bytes), log, id)
    }

    /// The tree of its records.
    pub fn tree(&self) -> Outcome<Tree> {
        self.log.show().map_err(of_library(&self.name, Case::File))
    }

    /// The listing, by the library. The records counted are those that are not
    /// folded.
    pub fn listing(&self) -> Outcome<String> {
        self.log.listing().map_err(of_library(&self.name, Case::File))
    }

    /// Says in a line if it reads otherwise than before version 4.
    pub fn tell_otherwise(&self, out: &mut Out) -> Outcome<()> {
        let tree = self.tree()?;
        let otherwise = Story::new(&self.log, &tree).otherwise();
        if let Some(words) = otherwise.words() {
            out.object(|| {
                Object::new("otherwise")
                    .text("file", self.shown())
                    .texts("aside", &otherwise.aside)
                    .texts("acting", &otherwise.acting)
            });
            out.line(format_args!("{}: {words} (sab explain 15)", self.shown()));
        }
        Ok(())
    }

    /// Says in a line if it has moves, which no analyser before version 5 takes.
    pub fn tell_moves(&self, out: &mut Out) -> Outcome<()> {
        let tree = self.tree()?;
        let moves = Story::new(&self.log, &tree).moves();
        if moves > 0 {
            out.object(|| {
                Object::new("moves")
                    .text("file", self.shown())
                    .number("moves", moves as u64)
            });
            out.line(format_args!(
                "{}: {}: an analyser before version 5 refuses it with 7 (sab explain 25)",
                self.shown(),
                why::counted(moves, "move")
            ));
        }
        Ok(())
    }

    /// Its name for messages.
    pub fn shown(&self) -> String {
        shown(&self.name)
    }

    /// How many records are folded.
    pub fn folded(&self) -> u32 {
        self.log.base().vector().sum()
    }

    /// What `check` says of it, behind its name.
    pub fn summary(&self) -> String {
        let base = match self.form {
            Form::Sab1 => String::new(),
            _ => format!(", {} folded, units {}", self.folded(), self.log.base().units()),
        };
        format!(
            "{}, archive {}, unit {}, {}{base}, seen {}",
            self.form,
            self.log.archive(),
            self.log.unit(),
            why::counted(self.log.records().len(), "record"),
            self.vector
        )
    }

    /// Says in a line how much room there is, where it becomes scarce or the file is
    /// not SAB1.
    pub fn tell_room(&self, out: &mut Out) {
        let used = self.log.records().len();
        let free = ROOM - used;
        if used < FEW && self.form == Form::Sab1 {
            return;
        }
        out.object(|| {
            Object::new("room")
                .text("file", self.shown())
                .number("free", free as u64)
        });
        let advice = match used {
            ROOM => "; it is full: sab fold (sab explain 11)",
            FEW.. => "; fold before it is full: sab fold (sab explain 11)",
            _ => "",
        };
        out.line(format_args!(
            "{}: {used} of {ROOM} places used, {free} free{advice}",
            self.shown()
        ));
    }

    /// The object of an archive.
    pub fn object(&self) -> Object {
        let listed = self.log.base().units().iter();
        let listed: Vec<u16> = listed.map(|unit| unit.number().into()).collect();
        Object::new("archive")
            .text("file", self.shown())
            .text("form", self.form)
            .number("archive", self.log.archive())
            .number("unit", self.log.unit().number())
            .number("records", self.log.records().len() as u64)
            .number("folded", self.folded())
            .numbers("vector", self.vector.counts())
            .numbers("listed", &listed)
    }
}

/// An archive file that this process has locked, to replace it.
pub struct Own<'a> {
    /// What it held when it was read.
    pub archive: Archive,
    held: Held<'a>,
}

impl<'a> Own<'a> {
    /// Locks an archive file and reads it.
    pub fn open(system: &'a dyn System, name: &Path) -> Outcome<Own<'a>> {
        let held = Held::open(system, name, LIMIT)?;
        let log = judge(name, held.bytes(), Some(held.length()))?;
        let archive = Archive::of(name, Form::of(held.bytes()), log, Some(held.id()))?;
        Ok(Own { archive, held })
    }

    /// Puts a log in the file's place, in the file's own form where that loses
    /// nothing. Nothing is written if nothing changed.
    pub fn replace(&self, log: &Log, backup: bool) -> Outcome<()> {
        if *log == self.archive.log {
            return Ok(());
        }
        let form = self.archive.form.keeping(log);
        let file = written(log, form).map_err(of_library(self.held.name(), Case::File))?;
        self.held
            .replace(&file, &|back| reads_back(back, log), backup)?;
        Ok(())
    }
}

/// The file of a log in a form.
pub fn written(log: &Log, form: Form) -> Answer<Vec<u8>> {
    match form {
        Form::Sab1 => log.write_file(),
        Form::Sab2 | Form::State => log.write_sab2(),
    }
}

/// Whether bytes are the file of a log, by the library.
fn reads_back(bytes: &[u8], log: &Log) -> bool {
    Log::read_file(bytes).as_ref() == Ok(log)
}

/// Writes a log as a new file: SAB1 where it loses nothing.
pub fn create(system: &dyn System, name: &Path, log: &Log) -> Outcome<()> {
    let form = Form::Sab1.keeping(log);
    let file = written(log, form).map_err(of_library(name, Case::File))?;
    files::create(system, name, &file, Over::Never, &|back| {
        reads_back(back, log)
    })?;
    Ok(())
}
