//! Files read and written so that a cut at any step leaves the old bytes or
//! the new, never something between.
//!
//! To replace a file: lock it, read it, do all work in memory, write the new
//! bytes beside it, bring them to the disk, read them back, and only then give
//! them the file's name. The lock dies with the process.

use crate::system::{Facts, Kind, OpenFile, System, names_descriptor};
use std::ffi::{OsStr, OsString};
use std::io;
use std::os::unix::ffi::{OsStrExt, OsStringExt};
use std::path::{Path, PathBuf};

/// The system's no, or what a file is instead of one that can be used.
#[derive(Debug)]
pub struct Trouble {
    /// The file's name as it was given.
    pub file: PathBuf,
    /// What is wrong, in words.
    pub words: String,
    /// What to do about it, if there is something to say.
    pub advice: Option<&'static str>,
}

/// What reading or writing answers.
pub type Done<T> = Result<T, Trouble>;

/// What a file is instead of one that can be used.
pub fn trouble(file: &Path, words: impl Into<String>) -> Trouble {
    Trouble {
        file: file.to_path_buf(),
        words: words.into(),
        advice: None,
    }
}

impl Trouble {
    /// With what to do about it.
    pub fn advise(mut self, advice: &'static str) -> Trouble {
        self.advice = Some(advice);
        self
    }
}

/// The system's no to something that was tried.
fn failed(file: &Path, tried: &str, error: &io::Error) -> Trouble {
    let words = match error.kind() {
        io::ErrorKind::NotFound => "no such file".to_string(),
        io::ErrorKind::PermissionDenied => format!("{tried}: permission denied"),
        _ => format!("{tried}: {error}"),
    };
    trouble(file, words)
}

const CHANGED: &str = "the file changed while it was read";
const CHANGED_ADVICE: &str = "another program writes it: wait until that has ended, then try again";

/// Whether a file is one that can be read. A pipe is, if it is one that a shell
/// opened for this process; any other could keep us waiting.
fn readable(path: &Path, facts: &Facts) -> Done<()> {
    match facts.kind {
        Kind::File => Ok(()),
        Kind::Pipe if names_descriptor(path) => Ok(()),
        Kind::Pipe => Err(trouble(path, "is a pipe, not a file")
            .advise("give - as the file and the bytes on standard input")),
        Kind::Folder => Err(trouble(path, "is a folder, not a file")),
        Kind::Device => Err(trouble(path, "is a device, not a file")
            .advise("copy the card's file to a folder, or give - and the bytes on standard input")),
    }
}

/// A file's bytes, so many at the most, and what the system said of it.
fn read_open(path: &Path, file: &mut dyn OpenFile, limit: usize) -> Done<(Vec<u8>, Facts)> {
    let cannot = |error: io::Error| failed(path, "cannot be read", &error);
    let before = file.facts().map_err(cannot)?;
    readable(path, &before)?;
    let bytes = file.read(limit).map_err(cannot)?;
    if before.kind != Kind::File {
        return Ok((bytes, before));
    }
    let again = file.read(limit).map_err(cannot)?;
    let after = file.facts().map_err(cannot)?;
    let whole = bytes.len() as u64 == before.length.min(limit as u64);
    if before != after || bytes != again || !whole {
        return Err(trouble(path, CHANGED).advise(CHANGED_ADVICE));
    }
    Ok((bytes, before))
}

/// What was read of a file.
#[derive(Debug)]
pub struct Bytes {
    /// Its bytes, up to the limit.
    pub bytes: Vec<u8>,
    /// Its whole length, where the system tells it.
    pub length: Option<u64>,
    /// Which file it is, where it has a name.
    pub id: Option<(u64, u64)>,
}

/// Reads a file, or standard input for `-`; so many bytes at the most.
pub fn read(system: &dyn System, path: &Path, limit: usize) -> Done<Bytes> {
    if is_standard(path) {
        let bytes = system
            .input(limit)
            .map_err(|error| failed(path, "cannot be read", &error))?;
        return Ok(Bytes {
            bytes,
            length: None,
            id: None,
        });
    }
    let cannot = |error: io::Error| failed(path, "cannot be opened", &error);
    // Before it is opened: opening a pipe waits for someone to write into it.
    readable(path, &system.facts(path).map_err(cannot)?)?;
    let mut file = system.open(path).map_err(cannot)?;
    let (bytes, facts) = read_open(path, &mut *file, limit)?;
    let plain = facts.kind == Kind::File;
    Ok(Bytes {
        bytes,
        length: plain.then_some(facts.length),
        id: plain.then_some(facts.id),
    })
}

/// Whether a name stands for standard input or output.
pub fn is_standard(path: &Path) -> bool {
    path.as_os_str() == OsStr::new("-")
}

/// A file that this process has locked, to replace it.
pub struct Held<'a> {
    system: &'a dyn System,
    name: PathBuf,
    path: PathBuf,
    _lock: Box<dyn OpenFile>,
    facts: Facts,
    bytes: Vec<u8>,
}

/// How often a file that was replaced between opening and locking is opened
/// again.
const TRIES: usize = 16;

impl<'a> Held<'a> {
    /// Locks a file and reads it.
    pub fn open(system: &'a dyn System, name: &Path, limit: usize) -> Done<Held<'a>> {
        if is_standard(name) {
            return Err(
                trouble(name, "standard input cannot be changed").advise("give a file's name")
            );
        }
        let cannot = |error: io::Error| failed(name, "cannot be opened", &error);
        let path = system.resolve(name).map_err(cannot)?;
        for _ in 0..TRIES {
            let facts = system.facts(&path).map_err(cannot)?;
            changeable(name, &facts)?;
            let mut file = system.open_writable(&path).map_err(cannot)?;
            if !file
                .lock()
                .map_err(|error| failed(name, "cannot be locked", &error))?
            {
                return Err(trouble(name, "is locked by another program")
                    .advise("another sab works on it: wait until that has ended, then try again"));
            }
            // Another process may have put a new file under this name before
            // the lock was ours.
            let ours = file.facts().map_err(cannot)?;
            if system.facts(&path).map_err(cannot)?.id != ours.id {
                continue;
            }
            let (bytes, facts) = read_open(name, &mut *file, limit)?;
            return Ok(Held {
                system,
                name: name.to_path_buf(),
                path,
                _lock: file,
                facts,
                bytes,
            });
        }
        Err(trouble(name, CHANGED).advise(CHANGED_ADVICE))
    }

    /// The name that was given.
    pub fn name(&self) -> &Path {
        &self.name
    }

    /// The bytes that were read.
    pub fn bytes(&self) -> &[u8] {
        &self.bytes
    }

    /// The file's length.
    pub fn length(&self) -> u64 {
        self.facts.length
    }

    /// Which file it is.
    pub fn id(&self) -> (u64, u64) {
        self.facts.id
    }

    /// Puts new bytes in the file's place, if `good` says so of what is read
    /// back. With `backup` the old bytes go to the name with a `~` behind it.
    pub fn replace(&self, new: &[u8], good: &dyn Fn(&[u8]) -> bool, backup: bool) -> Done<()> {
        if backup {
            let mut beside = self.path.clone().into_os_string();
            beside.push("~");
            let beside = PathBuf::from(beside);
            let old = Part::write(
                self.system,
                &beside,
                &self.bytes,
                Some(&self.facts),
                &|_| true,
            )?;
            old.put_over(&beside)?;
        }
        self.put(new, good).map_err(|trouble| Trouble {
            file: self.name.clone(),
            ..trouble
        })
    }

    fn put(&self, new: &[u8], good: &dyn Fn(&[u8]) -> bool) -> Done<()> {
        let part = Part::write(self.system, &self.path, new, Some(&self.facts), good)?;
        let now = self.system.facts(&self.path);
        match now {
            Ok(now) if now == self.facts => part.put_over(&self.path),
            Ok(_) => {
                part.discard();
                Err(trouble(&self.path, CHANGED).advise(CHANGED_ADVICE))
            }
            Err(error) => {
                part.discard();
                Err(failed(&self.path, "cannot be replaced", &error))
            }
        }
    }
}

/// Whether a file is one that can be replaced.
fn changeable(name: &Path, facts: &Facts) -> Done<()> {
    if facts.kind == Kind::Pipe {
        return Err(trouble(name, "is a pipe, not a file"));
    }
    readable(name, facts)?;
    if facts.mode & 0o222 == 0 {
        return Err(trouble(name, "is marked read-only")
            .advise("if it may be changed: chmod u+w, then try again"));
    }
    Ok(())
}

/// New bytes on the disk under a name of their own, in the folder where they
/// will stand.
struct Part<'a> {
    system: &'a dyn System,
    path: PathBuf,
    target: PathBuf,
}

impl<'a> Part<'a> {
    /// Writes the bytes beside the target, brings them to the disk and reads
    /// them back. What went wrong leaves nothing behind.
    fn write(
        system: &'a dyn System,
        target: &Path,
        bytes: &[u8],
        like: Option<&Facts>,
        good: &dyn Fn(&[u8]) -> bool,
    ) -> Done<Part<'a>> {
        let (path, mut file) = create_beside(system, target)?;
        let part = Part {
            system,
            path,
            target: target.to_path_buf(),
        };
        let written = part.fill(&mut *file, bytes, like, good);
        drop(file);
        match written {
            Ok(()) => Ok(part),
            Err(trouble) => {
                part.discard();
                Err(trouble)
            }
        }
    }

    fn fill(
        &self,
        file: &mut dyn OpenFile,
        bytes: &[u8],
        like: Option<&Facts>,
        good: &dyn Fn(&[u8]) -> bool,
    ) -> Done<()> {
        let cannot = |error: io::Error| failed(&self.target, "cannot be written", &error);
        if let Some(like) = like {
            file.dress(like).map_err(cannot)?;
        }
        file.write(bytes).map_err(cannot)?;
        file.sync().map_err(cannot)?;
        let back = self
            .system
            .open(&self.path)
            .and_then(|mut file| file.read(bytes.len() + 1))
            .map_err(cannot)?;
        if back != bytes || !good(&back) {
            return Err(
                trouble(&self.target, "what was written reads back otherwise")
                    .advise("the disk or card is failing: nothing was changed; use another"),
            );
        }
        Ok(())
    }

    /// Gives the bytes the target's name, in place of what had it.
    fn put_over(self, target: &Path) -> Done<()> {
        if let Err(error) = self.system.rename(&self.path, target) {
            let trouble = failed(target, "cannot be replaced", &error);
            self.discard();
            return Err(trouble);
        }
        self.settle(target)
    }

    /// Gives the bytes the target's name, which must be free.
    fn put_new(self, target: &Path) -> Done<()> {
        let put = match self.system.link(&self.path, target) {
            Ok(()) => {
                self.system.remove(&self.path).ok();
                Ok(())
            }
            // A file system without second names, as FAT.
            Err(error) if error.kind() != io::ErrorKind::AlreadyExists => {
                match self.system.facts(target) {
                    Ok(_) => Err(io::ErrorKind::AlreadyExists.into()),
                    Err(_) => self.system.rename(&self.path, target),
                }
            }
            Err(error) => Err(error),
        };
        match put {
            Ok(()) => self.settle(target),
            Err(error) => {
                let trouble = match error.kind() {
                    io::ErrorKind::AlreadyExists => exists(target),
                    _ => failed(target, "cannot be written", &error),
                };
                self.discard();
                Err(trouble)
            }
        }
    }

    /// Returns when the name is on the disk too.
    fn settle(&self, target: &Path) -> Done<()> {
        self.system
            .sync_folder(&folder_of(target))
            .map_err(|error| {
                failed(
                    target,
                    "is written, but the folder cannot be synced",
                    &error,
                )
            })
    }

    /// Removes what was written.
    fn discard(self) {
        self.system.remove(&self.path).ok();
    }
}

fn exists(target: &Path) -> Trouble {
    trouble(target, "is there already, and is not overwritten")
        .advise("give another name, or remove it first")
}

/// What is done about a file that has the name of a new one.
#[derive(Clone, Copy, Debug, PartialEq, Eq)]
pub enum Over {
    /// It is left as it is.
    Never,
    /// It is left as it is, but -f would have overwritten it.
    Not,
    /// It is overwritten.
    Forced,
}

/// The folder in which a file lies.
fn folder_of(path: &Path) -> PathBuf {
    match path.parent() {
        Some(folder) if !folder.as_os_str().is_empty() => folder.to_path_buf(),
        _ => PathBuf::from("."),
    }
}

/// Greatest length of the part of a name that a new file's name keeps.
const KEPT: usize = 200;

/// Behind the name of a file that is being written.
const ENDING: &[u8] = b".sab-part";

/// The beginning of the names under which a file's new bytes are written.
fn part_beginning(target: &Path) -> Vec<u8> {
    let name = target.file_name().unwrap_or_default().as_bytes();
    [b".", &name[..name.len().min(KEPT)], b"."].concat()
}

/// Makes a file beside the target, of a name that no other process uses.
fn create_beside<'a>(
    system: &'a dyn System,
    target: &Path,
) -> Done<(PathBuf, Box<dyn OpenFile + 'a>)> {
    let beginning = part_beginning(target);
    let mut last = io::Error::from(io::ErrorKind::AlreadyExists);
    for attempt in 0..TRIES {
        let mut name = beginning.clone();
        name.extend_from_slice(format!("{}-{attempt}", std::process::id()).as_bytes());
        name.extend_from_slice(ENDING);
        let path = folder_of(target).join(OsString::from_vec(name));
        match system.create(&path) {
            Ok(file) => return Ok((path, file)),
            Err(error) if error.kind() == io::ErrorKind::AlreadyExists => last = error,
            Err(error) => {
                return Err(match error.kind() {
                    io::ErrorKind::NotFound => trouble(target, "the folder is not there"),
                    io::ErrorKind::PermissionDenied => {
                        trouble(target, "cannot be written: permission denied in its folder")
                    }
                    _ => failed(target, "cannot be written", &error),
                });
            }
        }
    }
    Err(failed(target, "cannot be written", &last))
}

/// What a cut left beside a file: names of new bytes that never got its name.
pub fn left_over(system: &dyn System, path: &Path) -> Vec<PathBuf> {
    let folder = folder_of(path);
    let beginning = part_beginning(path);
    let mut found: Vec<PathBuf> = system
        .names(&folder)
        .unwrap_or_default()
        .into_iter()
        .filter(|name| {
            let name = name.as_bytes();
            name.len() > beginning.len() + ENDING.len()
                && name.starts_with(&beginning)
                && name.ends_with(ENDING)
                && name[beginning.len()..name.len() - ENDING.len()]
                    .iter()
                    .all(|byte| byte.is_ascii_digit() || *byte == b'-')
        })
        .map(|name| match path.parent() {
            Some(folder) => folder.join(name),
            None => PathBuf::from(name),
        })
        .collect();
    found.sort();
    found
}

/// Writes a new file, if `good` says so of what is read back. A file of this
/// name is an error, unless it is to be overwritten.
pub fn create(
    system: &dyn System,
    target: &Path,
    bytes: &[u8],
    over: Over,
    good: &dyn Fn(&[u8]) -> bool,
) -> Done<()> {
    if target.file_name().is_none() {
        return Err(trouble(target, "is no name for a file"));
    }
    let resolved = match over {
        Over::Forced => system.resolve(target).ok(),
        _ => None,
    };
    let target = resolved.as_deref().unwrap_or(target);
    let like = match system.facts(target) {
        Ok(_) if over == Over::Not => {
            return Err(exists(target).advise("give another name, or -f to overwrite it"));
        }
        Ok(_) if over == Over::Never => return Err(exists(target)),
        Ok(facts) => {
            changeable(target, &facts)?;
            Some(facts)
        }
        Err(_) => None,
    };
    let part = Part::write(system, target, bytes, like.as_ref(), good)?;
    if over == Over::Forced {
        part.put_over(target)
    } else {
        part.put_new(target)
    }
}
