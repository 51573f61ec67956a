//! Records passed from one log to another, in rows of blocks.

use crate::blocks;
use crate::failure::Refused;
use crate::json::Object;
use crate::numbers::Case;
use crate::out::Out;
use crate::why::{self, counted};
use sab::{Answer, Asking, Identity, Log, Record, Refusal, Row, raw};
use std::collections::{BTreeMap, BTreeSet};
use std::path::Path;

/// A block that was taken.
pub struct Given {
    /// Its records that were new.
    pub new: Vec<Identity>,
    /// Its records that were held already, and are equal.
    pub held: Vec<Identity>,
}

/// How a passing ended.
pub enum End {
    /// Nothing is lacking any more.
    Whole,
    /// As many blocks as were allowed have been taken.
    Cut,
    /// The library refused a block; the bytes behind it.
    Stopped(Refusal, Option<String>),
}

/// The passing of all that one log lacks of another.
pub struct Passed {
    /// The blocks taken.
    pub blocks: Vec<Given>,
    /// How it ended.
    pub end: End,
}

/// What the blocks of a row bring, one after another: what a block before brought
/// counts as held.
pub fn given(log: &Log, row: &Row) -> Vec<Given> {
    let mut held: BTreeSet<Identity> = log.records().map(Record::identity).collect();
    row.blocks()
        .map(|block| {
            let is_held = |identity: &Identity| {
                held.contains(identity) || log.base().has_folded(*identity)
            };
            let (old, new): (Vec<Identity>, Vec<Identity>) =
                blocks::identities(&block).partition(is_held);
            held.extend(&new);
            Given { new, held: old }
        })
        .collect()
}

/// Passes what one log lacks of another, asking carefully: the last record of
/// each unit that both hold is compared too. `room` is how many blocks with new
/// records may still be taken.
pub fn pass(from: &Log, to: &mut Log, room: &mut usize) -> Passed {
    pass_all(from, to, room).unwrap_or_else(|refusal| {
        let held = to.vector().unwrap_or_default();
        let folded = from.base().vector();
        let words = (refusal.number == 27).then(|| why::of_asked(&held, &folded));
        Passed {
            blocks: Vec::new(),
            end: End::Stopped(refusal, words.flatten()),
        }
    })
}

fn pass_all(from: &Log, to: &mut Log, room: &mut usize) -> Answer<Passed> {
    let asking = Asking::careful(to)?.above(to, &from.base().vector())?;
    let row = from.hand_out_row(&asking.vector())?;
    let mut blocks = given(to, &row);
    let fits = cut_at(&blocks, *room);
    let cut = Row::try_from(&row.as_ref()[..raw::BLOCK * fits])?;
    let taken = to.take_row(&cut)?;
    blocks.truncate(taken.taken.into());
    *room -= blocks.iter().filter(|given| !given.new.is_empty()).count();
    let end = match taken.stopped {
        Some(refusal) => {
            let refusal = Refusal::new(refusal.number);
            let block = row.blocks().nth(blocks.len());
            let words = block.and_then(|block| why::of_block(block.as_ref(), to, refusal));
            End::Stopped(refusal, words)
        }
        None if fits < row.len() => End::Cut,
        None => End::Whole,
    };
    Ok(Passed { blocks, end })
}

/// How many of the first blocks may be taken, where at most `room` of them bring
/// something new.
fn cut_at(blocks: &[Given], room: usize) -> usize {
    let new = blocks
        .iter()
        .enumerate()
        .filter(|(_, given)| !given.new.is_empty());
    new.map(|(at, _)| at).nth(room).unwrap_or(blocks.len())
}

/// The records that two logs hold under one identity with other bytes.
pub fn held_otherwise(one: &Log, other: &Log) -> Vec<Identity> {
    let held: BTreeMap<Identity, Record> = one
        .records()
        .map(|record| (record.identity(), record))
        .collect();
    let mut differing: Vec<Identity> = other
        .records()
        .filter(|record| {
            let held = held.get(&record.identity());
            held.is_some_and(|held| held.as_bytes() != record.as_bytes())
        })
        .map(Record::identity)
        .collect();
    differing.sort_unstable();
    differing
}

/// The library's refusal of what a log holds under identities that another holds
/// with other bytes: all blocks of its file, given to a copy of the other.
pub fn refusal_of_twice(from: &Log, to: &Log) -> Option<Refusal> {
    let file = from.write_file().ok()?;
    let mut copy = to.clone();
    let (blocks, _) = file.as_chunks::<{ sab::raw::BLOCK }>();
    let refusals = blocks.iter().filter_map(|block| copy.take(block).err());
    refusals.into_iter().find(|refusal| refusal.number == 10)
}

/// Says no if two logs hold other records under one identity.
pub fn deny_twice(name: &Path, from: &Log, to: &Log) -> Result<(), Refused> {
    let twice = held_otherwise(from, to);
    if twice.is_empty() {
        return Ok(());
    }
    let refusal = refusal_of_twice(from, to).unwrap_or(Refusal::new(10));
    let detail = Some(twice_words(&twice));
    Err(Refused::new(name, refusal, Case::Taking, detail))
}

/// Which records were made twice.
pub fn twice_words(twice: &[Identity]) -> String {
    format!(
        "{} held with other bytes: {}",
        counted(twice.len(), "record"),
        blocks::in_runs(twice)
    )
}

/// Says no if two logs are of different archives, by a take.
pub fn deny_other_archive(name: &Path, from: &Log, to: &Log) -> Result<(), Refused> {
    let try_it = || {
        let asked = to.vector()?.joined(&from.base().vector());
        let block = from.hand_out(&asked)?;
        match to.clone().take(block) {
            Err(refusal) if refusal.number == 6 => Err(refusal),
            _ => Ok(()),
        }
    };
    try_it().map_err(|refusal| {
        let detail = format!("archive {} and archive {}", to.archive(), from.archive());
        Refused::new(name, refusal, Case::Taking, Some(detail))
    })
}

/// Says which blocks were passed from one file to another.
pub fn tell_blocks(out: &mut Out, from: &str, to: &str, passed: &Passed) {
    let nothing_new = passed.blocks.iter().all(|given| given.new.is_empty());
    for (at, given) in passed.blocks.iter().enumerate() {
        out.object(|| {
            Object::new("block")
                .text("from", from)
                .text("to", to)
                .number("number", at as u64 + 1)
                .texts("records", &given.new)
                .texts("held", &given.held)
        });
        if !nothing_new {
            let words = given_words(given);
            out.line(format_args!("{from} -> {to}  block {}: {words}", at + 1));
        }
    }
    if nothing_new && matches!(passed.end, End::Whole) {
        let held = passed.blocks.iter().map(|given| given.held.len()).sum();
        let held = match held {
            0 => String::new(),
            some => format!("; {}", held_words(some)),
        };
        out.line(format_args!("{from} -> {to}  nothing lacking{held}"));
    }
}

fn held_words(held: usize) -> String {
    match held {
        1 => "1 held already is equal".to_string(),
        some => format!("{some} held already are equal"),
    }
}

/// What a block brought.
pub fn given_words(given: &Given) -> String {
    let new = format!(
        "{}: {}",
        counted(given.new.len(), "new record"),
        blocks::in_runs(&given.new)
    );
    let held = held_words(given.held.len());
    match (given.new.len(), given.held.len()) {
        (_, 0) => new,
        (0, _) => format!("nothing new, {held}"),
        _ => format!("{new}; {held}"),
    }
}
