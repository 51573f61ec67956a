//! `sab salvage`: what damaged cards still hold.

use super::{Command, Session};
use crate::archive::{self, ROOM};
use crate::args::{flag, value};
use crate::blocks::{ROWS, Whole, identities, in_runs, judge_alone, summary};
use crate::failure::{Outcome, of_library, refusal_words, usage};
use crate::files;
use crate::json::Object;
use crate::numbers::Case;
use crate::out::{Ink, Out, Status, shown};
use crate::why::{self, counted, grouped};
use sab::raw::BLOCK;
use sab::{Block, Identity, Log, Refusal, Unit, Vector};
use std::cmp::Reverse;
use std::collections::{BTreeMap, BTreeSet};
use std::path::{Path, PathBuf};

/// `sab salvage`.
pub const COMMAND: Command = Command {
    name: "salvage",
    usage: &["salvage FILE.. [--blocks] [-o OUT] [--unit=U] [--archive=N]"],
    summary: "the good blocks of damaged cards in one file, and what is missing",
    page: "\
Looks for whole blocks in any number of damaged files, at every byte, and takes
them all into one log, in whatever order they fit. Says of every stretch of each
file what it is, then what the log holds, which records are known of and missing,
and which blocks wait for them. More cards of the same archive, damaged or good,
fill the gaps: every unit holds the records it has heard of.

    $ sab salvage worn0.sab
    worn0.sab: block 0, bytes 0 to 511: taken, 6 records
    worn0.sab: block 1, bytes 512 to 1023: refused 4: a sum differs: some byte of the block changed (its sums are 15970 39260, due are 15971 39464)
    worn0.sab: block 2, bytes 1024 to 1535: whole, waits for 0.7 to 0.12
    held: 6 records, seen 6 0 0 0 0 0 0 0
    missing: 0.7 to 0.14, 8 records

Another card of the archive fills the gap, though it is damaged itself:

    $ sab salvage worn0.sab worn1.sab -o mended.sab --unit=0
    worn0.sab: block 0, bytes 0 to 511: taken, 6 records
    worn0.sab: block 1, bytes 512 to 1023: refused 4: a sum differs: some byte of the block changed (its sums are 15970 39260, due are 15971 39464)
    worn0.sab: block 2, bytes 1024 to 1535: whole, held already
    worn1.sab: block 0, bytes 0 to 511: taken, 1 record
    worn1.sab: bytes 512 to 521: refused 3: a block does not begin with SAB1 (it begins with 0d 0a 0d 0a)
    worn1.sab: bytes 522 to 1033: taken, 5 records
    worn1.sab: bytes 1034 to 1545: taken, 3 records
    held: 15 records, seen 14 1 0 0 0 0 0 0
    missing: nothing that these files know of
    mended.sab: SAB1, archive 12, unit 0, 15 records, seen 14 1 0 0 0 0 0 0

With -o the log is written as a new file. Its unit is the one that the blocks
name, if they all name the same; else --unit says which.

Of a card of the form SAB2 the records are taken out that are not folded. What is
folded is missing then, unless another card still has it as records: list and base
are not mended.",
    options: &[
        flag("blocks", None, "a line for each block, also where many are alike"),
        value("output", Some('o'), "OUT", "the file to write"),
        value("unit", None, "U", "the unit of the file to write"),
        value("archive", None, "N", "the archive, if blocks of several are found"),
    ],
    statuses: "0 nothing that is known of is missing; 1 something is; 3 a file cannot be read or written; \
               4 there is no whole block",
    run,
};

/// The longest file that is looked through.
const LIMIT: usize = 1 << 20;

/// A stretch of a file: a block, or bytes that are none.
struct Piece {
    file: usize,
    at: usize,
    length: usize,
    state: State,
}

impl Piece {
    /// Whether it is a whole block of the archive that was not taken.
    fn is_left(&self) -> bool {
        match &self.state {
            State::Waits(_) => true,
            State::Not(refusal, _) => refusal.number != 6,
            _ => false,
        }
    }
}

/// What a stretch is, by the library.
enum State {
    /// A whole block that no log was asked to take yet.
    Whole(Box<Block>),
    /// A whole block of an SAB2 file that has no records.
    Rows,
    /// Taken, with so many records that were new.
    Taken(usize),
    /// Whole, but it follows on records that are not held.
    Waits(Box<Block>),
    /// Whole, and not taken.
    Not(Refusal, Option<String>),
    /// Not whole.
    Damaged(Refusal, Option<String>),
}

fn run(session: &mut Session) -> Outcome<Status> {
    let names = session.args.files(1..=usize::MAX, "FILE..")?;
    let unit: Option<Unit> = session.args.parsed("unit")?;
    let archive: Option<u32> = session.args.number("archive", 0..=u32::MAX)?;
    let output = session.args.path("output");
    let mut pieces = Vec::new();
    let mut worst = Status::Yes;
    for (file, name) in names.iter().enumerate() {
        match files::read(session.system, name, LIMIT + 1) {
            Ok(read) if read.bytes.len() > LIMIT => {
                let words = format!("is longer than {} bytes", grouped(LIMIT as u64));
                let advice = Some("cut the archive file out of it first");
                session.out.complain(Some(name), words, advice);
                worst = Status::System;
            }
            Ok(read) => pieces.extend(cut(file, &read.bytes)),
            Err(trouble) => {
                let failure = crate::failure::Failure::from(trouble);
                worst = worst.max(failure.tell(COMMAND.name, &mut session.out));
            }
        }
    }
    if pieces.is_empty() && worst != Status::Yes {
        return Ok(worst);
    }
    let found = Found::of(&pieces);
    found.tell_archives(&mut session.out, archive);
    let wanted = archive.or(found.archive());
    let Some(archive) = wanted.filter(|wanted| found.archives().contains_key(wanted)) else {
        tell_pieces(session, &names, &pieces, &BTreeSet::new());
        let of = archive.map(|archive| format!(" of archive {archive}"));
        let words = format!(
            "salvage: no whole block{} was found",
            of.unwrap_or_default()
        );
        session.out.complain(None, words, None);
        return Ok(Status::Refused);
    };
    let own = found.unit(unit, output.is_some(), archive)?;
    let mut log = Log::start(archive, own);
    let known = found.known(archive);
    take_all(&mut log, &mut pieces);
    let missing = missing(&log, &known);
    tell_pieces(session, &names, &pieces, &missing);
    let status = Status::no_if(!missing.is_empty() || pieces.iter().any(Piece::is_left));
    let vector = log.vector().map_err(of_library(&names[0], Case::Taking))?;
    tell_log(&mut session.out, &log, &vector, &missing);
    if let Some(output) = output {
        write(session, &output, &log, &missing)?;
    }
    Ok(worst.max(status))
}

/// Cuts a file into blocks. A block can begin at any byte: some may be lost, or
/// others put in before it.
fn cut(file: usize, bytes: &[u8]) -> Vec<Piece> {
    let mut pieces = Vec::new();
    let mut at = 0;
    while at < bytes.len() {
        let end = bytes.len().min(at + BLOCK);
        let (length, state) = match judge_alone(&bytes[at..end]) {
            Ok(Whole::Records(block)) => (BLOCK, State::Whole(block)),
            Ok(Whole::Rows) => (BLOCK, State::Rows),
            Err(refusal) => {
                let next = (at + 1..end).find(|next| whole_at(bytes, *next));
                let length = next.unwrap_or(end) - at;
                let empty = Log::start(0, Unit::ALL[0]);
                let detail = why::of_block(&bytes[at..end], &empty, refusal);
                (length, State::Damaged(refusal, detail))
            }
        };
        pieces.push(Piece {
            file,
            at,
            length,
            state,
        });
        at += length;
    }
    pieces
}

/// Whether a whole block begins there.
fn whole_at(bytes: &[u8], at: usize) -> bool {
    (bytes[at..].starts_with(b"SAB1") || bytes[at..].starts_with(b"SAB2"))
        && bytes
            .get(at..at + BLOCK)
            .is_some_and(|block| judge_alone(block).is_ok())
}

/// What the whole blocks say of themselves.
struct Found<'a> {
    blocks: Vec<&'a Block>,
}

impl<'a> Found<'a> {
    fn of(pieces: &'a [Piece]) -> Found<'a> {
        let blocks = pieces.iter().filter_map(|piece| match &piece.state {
            State::Whole(block) => Some(&**block),
            _ => None,
        });
        Found {
            blocks: blocks.collect(),
        }
    }

    /// The archives that blocks name, each with how many do.
    fn archives(&self) -> BTreeMap<u32, usize> {
        let mut archives = BTreeMap::new();
        for block in &self.blocks {
            *archives.entry(block.archive()).or_default() += 1;
        }
        archives
    }

    /// The archive that most blocks name.
    fn archive(&self) -> Option<u32> {
        let archives = self.archives().into_iter();
        let most = archives.max_by_key(|(archive, count)| (*count, Reverse(*archive)));
        most.map(|(archive, _)| archive)
    }

    /// Says that there are blocks of several archives, and none was asked for.
    fn tell_archives(&self, out: &mut Out, asked: Option<u32>) {
        let archives = self.archives();
        if asked.is_none() && archives.len() > 1 {
            let words = format!(
                "salvage: there are blocks of several archives: {}",
                listed(archives.keys())
            );
            let advice = Some("the one with the most blocks is taken; --archive=N takes another");
            out.complain(None, words, advice);
        }
    }

    /// The unit: the one asked for, or the one that all blocks name.
    fn unit(&self, asked: Option<Unit>, wanted: bool, archive: u32) -> Outcome<Unit> {
        let of_archive = self
            .blocks
            .iter()
            .filter(|block| block.archive() == archive);
        let named: BTreeSet<u8> = of_archive.map(|block| block.sender()).collect();
        let only = named.first().copied().unwrap_or_default();
        let only = Unit::try_from(u32::from(only)).unwrap_or(Unit::ALL[0]);
        match asked {
            Some(unit) => Ok(unit),
            None if named.len() <= 1 || !wanted => Ok(only),
            None => Err(usage(format!(
                "the blocks are of several units; --unit=U wanted: {}",
                listed(named)
            ))),
        }
    }

    /// How many records of each unit are known of: what headers count, what
    /// records have seen, and the records themselves.
    fn known(&self, archive: u32) -> [u16; 8] {
        let mut known = [0; 8];
        let mut raise = |counts: &[u16; 8]| {
            for (known, count) in known.iter_mut().zip(counts) {
                *known = (*known).max(*count);
            }
        };
        for block in self
            .blocks
            .iter()
            .filter(|block| block.archive() == archive)
        {
            raise(block.vector().counts());
            for identity in identities(block) {
                let mut counts = [0; 8];
                counts[usize::from(identity.unit().number())] = identity.number();
                raise(&counts);
            }
        }
        known
    }
}

fn listed<T: ToString>(items: impl IntoIterator<Item = T>) -> String {
    let texts: Vec<String> = items.into_iter().map(|item| item.to_string()).collect();
    texts.join(", ")
}

/// Takes every whole block that the log takes, again and again until none fits
/// any more.
fn take_all(log: &mut Log, pieces: &mut [Piece]) {
    loop {
        let before = log.records().len();
        for piece in pieces.iter_mut() {
            let (State::Whole(block) | State::Waits(block)) = &piece.state else {
                continue;
            };
            let held = log.records().len();
            piece.state = match log.take(**block) {
                Ok(()) => State::Taken(log.records().len() - held),
                Err(refusal) if matches!(refusal.number, 8 | 9) => State::Waits(block.clone()),
                Err(refusal) => {
                    let detail = why::of_block(block.as_ref().as_ref(), log, refusal);
                    State::Not(refusal, detail)
                }
            };
        }
        if log.records().len() == before {
            return;
        }
    }
}

/// The records that are known of and not held.
fn missing(log: &Log, known: &[u16; 8]) -> BTreeSet<Identity> {
    let held: BTreeSet<Identity> = log.records().map(|record| record.identity()).collect();
    Unit::ALL
        .iter()
        .zip(known)
        .flat_map(|(unit, count)| {
            (1..=*count).filter_map(move |number| Identity::new(*unit, number))
        })
        .filter(|identity| !held.contains(identity))
        .collect()
}

/// A stretch in words, and a key that alike ones share.
fn state_words(piece: &Piece, missing: &BTreeSet<Identity>, each: bool) -> (String, Option<Ink>) {
    match &piece.state {
        State::Whole(block) => (format!("whole: {}", summary(block)), None),
        State::Rows => (format!("whole, {ROWS}: no records"), None),
        State::Taken(0) => ("whole, held already".to_string(), None),
        State::Taken(new) if each => (format!("taken, {}", counted(*new, "record")), None),
        State::Taken(_) => ("taken".to_string(), None),
        State::Waits(block) => {
            let waits = waits_for(block, missing);
            let words = match waits.is_empty() {
                true => "whole, follows on what is missing".to_string(),
                false => format!("whole, waits for {}", in_runs(&waits)),
            };
            (words, Some(Ink::Alarm))
        }
        State::Not(refusal, detail) => (
            format!(
                "whole, {}",
                refusal_words(*refusal, Case::Taking, detail.as_deref())
            ),
            Some(Ink::Alarm),
        ),
        State::Damaged(refusal, detail) => {
            let words = refusal_words(*refusal, Case::Taking, detail.as_deref());
            (words, Some(Ink::Alarm))
        }
    }
}

/// Which missing records a block waits for: those that its first has seen.
fn waits_for(block: &Block, missing: &BTreeSet<Identity>) -> Vec<Identity> {
    let record = &block.as_bytes()[28..108];
    let seen = Vector::from_bytes(&std::array::from_fn(|i| record[4 + i]));
    let seen_of = |identity: &&Identity| !seen.lacks(**identity);
    missing.iter().filter(seen_of).copied().collect()
}

/// Says of every stretch what it is; alike ones behind each other in one line.
fn tell_pieces(
    session: &mut Session,
    names: &[PathBuf],
    pieces: &[Piece],
    missing: &BTreeSet<Identity>,
) {
    let each = session.args.has("blocks") || pieces.len() <= 8;
    let mut at = 0;
    while at < pieces.len() {
        let first = &pieces[at];
        let (words, ink) = state_words(first, missing, each);
        let alike = |piece: &&Piece| {
            !each
                && piece.file == first.file
                && piece.length == first.length
                && state_words(piece, missing, each).0 == words
        };
        let run = pieces[at + 1..].iter().take_while(alike).count();
        let last = &pieces[at + run];
        for piece in &pieces[at..=at + run] {
            session.out.object(|| object(&names[piece.file], piece));
        }
        // A block that lies elsewhere than in a file has no number.
        let place = first.at / BLOCK;
        let which = match (run, first.at % BLOCK, last.length) {
            (0, 0, BLOCK) => format!("block {place}, "),
            (_, 0, BLOCK) => format!("blocks {place} to {}, ", place + run),
            _ => String::new(),
        };
        let words = ink.map_or(words.clone(), |ink| session.out.ink(ink, &words));
        session.out.line(format_args!(
            "{}: {which}bytes {} to {}: {words}",
            shown(&names[first.file]),
            first.at,
            last.at + last.length - 1
        ));
        at += run + 1;
    }
}

fn object(name: &Path, piece: &Piece) -> Object {
    let (state, number) = match &piece.state {
        State::Whole(_) => ("whole", 0),
        State::Rows => ("rows", 0),
        State::Taken(_) => ("taken", 0),
        State::Waits(_) => ("waits", 8),
        State::Not(refusal, _) => ("refused", refusal.number),
        State::Damaged(refusal, _) => ("damaged", refusal.number),
    };
    Object::new("piece")
        .text("file", shown(name))
        .number("at", piece.at as u64)
        .number("length", piece.length as u64)
        .text("state", state)
        .number("number", number)
}

/// Says what the log holds and what is missing.
fn tell_log(out: &mut Out, log: &Log, vector: &Vector, missing: &BTreeSet<Identity>) {
    let count = log.records().len();
    let missing: Vec<Identity> = missing.iter().copied().collect();
    out.object(|| {
        Object::new("salvaged")
            .number("archive", log.archive())
            .number("records", count as u64)
            .numbers("vector", vector.counts())
            .texts("missing", &missing)
    });
    let full = if count == ROOM {
        ", the log is full"
    } else {
        ""
    };
    out.line(format_args!(
        "held: {}, seen {vector}{full}",
        counted(count, "record")
    ));
    match missing.as_slice() {
        [] => out.line("missing: nothing that these files know of"),
        some => out.line(format_args!(
            "missing: {}, {}",
            in_runs(some),
            counted(some.len(), "record")
        )),
    }
}

/// Writes the log as a new file.
fn write(
    session: &mut Session,
    output: &Path,
    log: &Log,
    missing: &BTreeSet<Identity>,
) -> Outcome<()> {
    archive::create(session.system, output, log)?;
    let written = archive::Archive::read(session.system, output)?;
    session.out.object(|| written.object());
    session
        .out
        .line(format_args!("{}: {}", written.shown(), written.summary()));
    let of_own = |identity: &&Identity| identity.unit() == log.unit();
    let own: Vec<Identity> = missing.iter().filter(of_own).copied().collect();
    if !own.is_empty() {
        let words = format!("of its own unit {} are missing", in_runs(&own));
        let advice = "it must not act before it has taken them back, from any unit that holds them";
        session.out.complain(Some(output), words, Some(advice));
    }
    Ok(())
}
