//! `sab order`: another maker's order of replay.

use super::{Command, Session};
use crate::archive::Archive;
use crate::failure::{Outcome, Refused, usage};
use crate::files::{self, Done, is_standard, trouble};
use crate::json::Object;
use crate::numbers::Case;
use crate::out::{Ink, Status, shown};
use crate::records::{aside_line, entry_line};
use crate::why::counted;
use sab::{Condition, Identity, Record, Refusal, Tree};
use std::collections::BTreeMap;
use std::path::Path;

/// `sab order`.
pub const COMMAND: Command = Command {
    name: "order",
    usage: &["order FILE LIST"],
    summary: "may the records be replayed in this order?",
    page: "\
Checks an order in which another maker replays the records of a file. LIST is a
text: identities as 0.1, in that order, parted by blanks, commas or lines; # begins
a remark to the end of its line. Three conditions are checked, each wholly before
the next:

    1  each record of the file is named once, and nothing else is named
    2  no record stands before one that it has seen
    3  replayed in this order, the records leave the same entries and the same asides

It says whether the order is accepted, or which condition fails first and where:

    $ echo '0.1 0.2 1.1' | sab order bench.sab -
    bench.sab: -: accepted: 3 records in this order leave the same 2 entries and 1 aside
    $ echo '0.2 0.1 1.1' | sab order bench.sab -
    bench.sab: -: not accepted: condition 2 fails: no record stands before one that it has seen
    -: line 1: 0.2 stands before 0.1 (line 1), which it has seen

The order by rank, in which sab log prints the records, is always accepted. If
records are folded, no order is checked (29). Of an order that fails the first
condition it is said which name is the first wrong one and which records are not
named; of one that fails the second, the first record that comes too early; of one
that fails the third, the lines in which the two listings differ, - by rank and + in
this order. A unit or number that no record can have, as 9.1, is the name of no
record.

FILE is only read. FILE or LIST may be - for standard input.",
    options: &[],
    statuses: "0 accepted; 1 a condition fails; 3 a file cannot be read, or LIST is no list of identities; \
               4 refused: the file, or records are folded (29)",
    run,
};

/// A byte more than the longest list.
const LIMIT: usize = (1 << 20) + 1;

/// What to do about folded records.
const UNFOLDED: &str = "an order names every record: check it on the last card from before the fold";

/// How many of a kind are told.
const TOLD: usize = 20;

/// A name in a list.
struct Name {
    text: String,
    identity: Identity,
    line: usize,
}

fn run(session: &mut Session) -> Outcome<Status> {
    let files = session.args.files(2..=2, "FILE and LIST")?;
    if files.iter().all(|file| is_standard(file)) {
        return Err(usage("FILE or LIST is -, not both"));
    }
    let archive = Archive::read(session.system, &files[0])?;
    let read = files::read(session.system, &files[1], LIMIT)?;
    let names = names(&files[1], &read.bytes)?;
    let order: Vec<Identity> = names.iter().map(|name| name.identity).collect();
    let checked = archive
        .log
        .check_order(&order)
        .map_err(|refusal| refused(&archive, refusal))?;
    let records: Vec<Record> = archive.log.records().collect();
    let lines = match (&checked.trees, checked.failed) {
        (_, Some(Condition::Names)) => misnamed(&files[1], &names, &records),
        (_, Some(Condition::Seen)) => too_early(&files[1], &names, &records),
        (Some((ours, theirs)), Some(Condition::Tree)) => differing(&listing(ours), &listing(theirs)),
        _ => Vec::new(),
    };
    session.out.object(|| {
        Object::new("order")
            .text("file", archive.shown())
            .text("list", shown(&files[1]))
            .truth("accepted", checked.failed.is_none())
            .maybe_number("condition", checked.failed.map(Condition::number))
            .texts("where", &lines)
    });
    let words = match (checked.failed, &checked.trees) {
        (Some(condition), _) => {
            let no = session.out.ink(Ink::Alarm, "not accepted");
            format!("{no}: condition {} fails: {condition}", condition.number())
        }
        (None, trees) => {
            let yes = session.out.ink(Ink::Well, "accepted");
            let held = counted(records.len(), "record");
            let leave = if records.len() == 1 { "leaves" } else { "leave" };
            let left = trees.as_ref().map_or(String::new(), |(tree, _)| left(tree));
            format!("{yes}: {held} in this order {leave} the same {left}")
        }
    };
    let files = format!("{}: {}", archive.shown(), shown(&files[1]));
    session.out.line(format_args!("{files}: {words}"));
    for line in &lines {
        session.out.line(line);
    }
    Ok(Status::no_if(checked.failed.is_some()))
}

/// A refusal, with how many records are folded if that is its cause.
fn refused(archive: &Archive, refusal: Refusal) -> Refused {
    let folded = (refusal.number == 29).then(|| counted(archive.folded() as usize, "record"));
    Refused {
        todo: folded.is_some().then(|| UNFOLDED.to_string()),
        ..Refused::new(&archive.name, refusal, Case::File, folded)
    }
}

/// What a tree has.
fn left(tree: &Tree) -> String {
    let entries = match tree.entries().count() {
        1 => "1 entry".to_string(),
        some => format!("{some} entries"),
    };
    format!("{entries} and {}", counted(tree.asides().count(), "aside"))
}

/// The names of a list.
fn names(file: &Path, bytes: &[u8]) -> Done<Vec<Name>> {
    if bytes.len() == LIMIT {
        return Err(trouble(file, "is too long for a list of identities"));
    }
    let text = String::from_utf8_lossy(bytes);
    let mut names = Vec::new();
    for (at, line) in text.lines().enumerate() {
        let named = line.split('#').next().unwrap_or_default();
        let words = named.split(|letter: char| letter.is_whitespace() || letter == ',');
        for word in words.filter(|word| !word.is_empty()) {
            let Some(identity) = identity(word) else {
                let word = word.escape_debug();
                let words = format!("line {}: {word} is no identity, as 3.17", at + 1);
                return Err(trouble(file, words));
            };
            names.push(Name {
                text: word.to_string(),
                identity,
                line: at + 1,
            });
        }
    }
    Ok(names)
}

/// What a word names. Two numbers that no record can have name the root, which is
/// no record either.
fn identity(word: &str) -> Option<Identity> {
    let (unit, number) = word.split_once('.')?;
    let digits = |part: &str| !part.is_empty() && part.bytes().all(|byte| byte.is_ascii_digit());
    let written = digits(unit) && digits(number);
    written.then(|| word.parse().unwrap_or(Identity::ROOT))
}

/// The first wrong name of a list, and the records that it does not name.
fn misnamed(file: &Path, names: &[Name], records: &[Record]) -> Vec<String> {
    let held = |identity| records.iter().any(|record| record.identity() == identity);
    let mut lines = BTreeMap::new();
    let wrong = names.iter().find_map(|Name { text, identity, line }| {
        if !held(*identity) {
            return Some(format!("line {line}: {text} is no record of the file"));
        }
        let before = lines.insert(*identity, *line)?;
        Some(format!("line {line}: {text} is named in line {before} already"))
    });
    let named = |record: &Record| names.iter().any(|name| name.identity == record.identity());
    let missing: Vec<String> = records
        .iter()
        .filter(|record| !named(record))
        .map(|record| record.identity().to_string())
        .collect();
    let lacking = (!missing.is_empty()).then(|| {
        let more = match missing.len() {
            ..=TOLD => String::new(),
            many => format!(" and {} more", many - TOLD),
        };
        let are = if missing.len() == 1 { "is" } else { "are" };
        let told = missing[..missing.len().min(TOLD)].join(", ");
        let count = counted(missing.len(), "record");
        format!("{count} {are} not named: {told}{more}")
    });
    let file = shown(file);
    let both = wrong.into_iter().chain(lacking);
    both.map(|words| format!("{file}: {words}")).collect()
}

/// The first record of a list that stands before one that it has seen.
fn too_early(file: &Path, names: &[Name], records: &[Record]) -> Vec<String> {
    let file = shown(file);
    let early = names.iter().enumerate().find_map(|(at, name)| {
        let record = records.iter().find(|record| record.identity() == name.identity)?;
        let seen = record.seen();
        let later = names[at + 1..].iter().find(|later| !seen.lacks(later.identity))?;
        Some(format!(
            "{file}: line {}: {} stands before {} (line {}), which it has seen",
            name.line, name.text, later.text, later.line
        ))
    });
    early.into_iter().collect()
}

/// A tree as a listing has it, each line with the identity that it is about.
fn listing(tree: &Tree) -> Vec<(Identity, String)> {
    let entries = tree.entries().map(|entry| (entry.identity(), entry_line(entry)));
    let asides = tree.asides().map(|aside| (aside.identity(), aside_line(aside)));
    entries.chain(asides).collect()
}

/// The lines in which two listings differ, whatever their orders.
fn differing(ours: &[(Identity, String)], theirs: &[(Identity, String)]) -> Vec<String> {
    let mut lines = Vec::new();
    let mut tell = |sign: &str, line: &str| lines.push(format!("{sign}{line}"));
    for (identity, line) in ours.iter().filter(|row| !theirs.contains(row)) {
        tell("-", line);
        for (_, other) in theirs.iter().filter(|(one, _)| one == identity) {
            tell("+", other);
        }
    }
    for (identity, line) in theirs {
        if !ours.iter().any(|(one, _)| one == identity) {
            tell("+", line);
        }
    }
    lines
}
