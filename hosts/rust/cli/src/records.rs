//! Records, entries and asides in words.
//!
//! Which record acts and which stands aside, and why, is the library's answer;
//! here it is only told who, what and when, from the records themselves.

use crate::json::Object;
use crate::why::counted;
use sab::{Aside, Base, Entry, Identity, Kind, Log, Operation, Record, Tree};
use std::collections::BTreeMap;

/// A label between quotes, as a listing has it.
pub fn quoted(label: &str) -> String {
    let mut text = String::from("\"");
    for letter in label.chars() {
        if letter == '"' || letter == '\\' {
            text.push('\\');
        }
        text.push(letter);
    }
    text + "\""
}

/// An entry as a listing has it.
pub fn entry_line(entry: Entry) -> String {
    let mark = entry.mark().map(|mark| format!(" {mark}"));
    format!(
        "{} {} in {} {} {}{}{}",
        kind_word(entry.kind()),
        entry.identity(),
        entry.folder(),
        quoted(entry.label()),
        entry.date(),
        mark.unwrap_or_default(),
        if entry.is_disputed() { " disputed" } else { "" }
    )
}

/// An aside as a listing has it.
pub fn aside_line(aside: Aside) -> String {
    let marks = aside.marks().map(|marked| marked.to_string());
    format!(
        "aside {} reason {} marks {} {}",
        aside.identity(),
        aside.reason(),
        marks.unwrap_or("-".to_string()),
        state(aside)
    )
}

/// What an entry is, in a word.
pub fn kind_word(kind: Kind) -> &'static str {
    match kind {
        Kind::Folder => "folder",
        Kind::Trace => "trace",
    }
}

/// What it costs to leave an aside as it is.
#[derive(Clone, Copy, Debug, PartialEq, Eq)]
pub enum Stake {
    /// It names trace data that no trace of the tree names.
    Work,
    /// Nothing is lost by it.
    Nothing,
    /// It stands aside because another record does.
    Follows(Identity),
}

/// An aside in words.
pub struct Told {
    /// Who did what and when.
    pub did: String,
    /// Why it gave way.
    pub because: String,
    /// What to do about it; of a settled one, who settled it.
    pub todo: String,
    /// What it costs to leave it.
    pub stake: Stake,
}

impl Told {
    /// Who did what and when, and why it gave way.
    pub fn words(&self) -> String {
        format!("{}, {}", self.did, self.because)
    }
}

impl Stake {
    /// In words.
    pub fn words(self) -> String {
        match self {
            Stake::Work => "work at stake: no trace of the tree has its mark".to_string(),
            Stake::Nothing => "nothing is lost".to_string(),
            Stake::Follows(first) => format!("nothing is lost by itself: it follows from {first}"),
        }
    }

    /// In a word, for programs.
    pub fn word(self) -> &'static str {
        match self {
            Stake::Work => "work",
            Stake::Nothing => "nothing",
            Stake::Follows(_) => "follows",
        }
    }
}

/// What a wish names.
pub struct Wished<'a> {
    /// The folder of a make or a move.
    pub folder: Option<Identity>,
    /// The entry to change, or the record to settle.
    pub object: Option<Identity>,
    /// The label.
    pub label: Option<&'a str>,
}

/// The records of a log with the tree that they make.
pub struct Story<'a> {
    tree: &'a Tree,
    base: &'a Base,
    records: Vec<Record<'a>>,
    places: BTreeMap<Identity, usize>,
    entries: BTreeMap<Identity, Entry<'a>>,
    asides: BTreeMap<Identity, Aside<'a>>,
}

impl<'a> Story<'a> {
    /// Of a log and its tree.
    pub fn new(log: &'a Log, tree: &'a Tree) -> Story<'a> {
        let records: Vec<Record> = log.records().collect();
        let places = records.iter().enumerate();
        Story {
            tree,
            base: log.base(),
            places: places.map(|(at, record)| (record.identity(), at)).collect(),
            records,
            entries: tree
                .entries()
                .map(|entry| (entry.identity(), entry))
                .collect(),
            asides: tree
                .asides()
                .map(|aside| (aside.identity(), aside))
                .collect(),
        }
    }

    /// The records, by rank.
    pub fn records(&self) -> &[Record<'a>] {
        &self.records
    }

    /// The record of an identity.
    pub fn record(&self, identity: Identity) -> Option<Record<'a>> {
        self.places.get(&identity).map(|at| self.records[*at])
    }

    /// The aside of an identity.
    pub fn aside(&self, identity: Identity) -> Option<Aside<'a>> {
        self.asides.get(&identity).copied()
    }

    /// The entry of an identity, if it is in the tree.
    pub fn entry(&self, identity: Identity) -> Option<Entry<'a>> {
        self.entries.get(&identity).copied()
    }

    /// The asides, open ones first, each kind by rank.
    pub fn asides(&self) -> Vec<Aside<'a>> {
        let mut asides: Vec<Aside> = self.tree.asides().collect();
        asides.sort_by_key(|aside| !aside.is_open());
        asides
    }

    /// The open asides that mark an entry.
    pub fn disputing(&self, entry: Identity) -> impl Iterator<Item = Identity> {
        self.tree
            .asides()
            .filter(move |aside| aside.is_open() && aside.marks() == Some(entry))
            .map(|aside| aside.identity())
    }

    /// The first entry that is disputed.
    pub fn first_disputed(&self) -> Option<Identity> {
        let disputed = self.tree.entries().find(|entry| entry.is_disputed());
        disputed.map(|entry| entry.identity())
    }

    /// The entries of a folder: folders first, then by label.
    pub fn inside(&self, folder: Identity) -> Vec<Entry<'a>> {
        let mut inside: Vec<Entry> = self.tree.entries_in(folder).collect();
        inside.sort_by_key(|entry| {
            let label = entry.label().to_ascii_lowercase();
            (entry.kind() == Kind::Trace, label)
        });
        inside
    }

    /// Where an entry lies: the labels from the root on.
    pub fn path(&self, identity: Identity) -> String {
        let mut labels = Vec::new();
        let mut at = identity;
        // No way to the root is longer than there are entries.
        for _ in 0..=self.entries.len() {
            let Some(entry) = self.entry(at) else { break };
            labels.push(entry.label());
            at = entry.folder();
        }
        let mut path = String::new();
        for label in labels.iter().rev() {
            path.push('/');
            path += label;
        }
        if path.is_empty() {
            "/".to_string()
        } else {
            path
        }
    }

    /// An identity with the label of its entry, as far as it is known.
    pub fn name(&self, identity: Identity) -> String {
        if identity.is_root() {
            return "the root".to_string();
        }
        let label = match self.entry(identity) {
            Some(entry) => Some(entry.label()),
            None => self.record(identity).and_then(Record::label),
        };
        match label {
            Some(label) => format!("{identity} {}", quoted(label)),
            None => identity.to_string(),
        }
    }

    /// The label that an entry had when a record came; where no record tells, that
    /// in the base.
    fn label_before(&self, identity: Identity, record: Record) -> Option<&'a str> {
        let told = self.place_before(identity, record).and_then(Record::label);
        told.or_else(|| {
            let mut folded = self.base.entries();
            let entry = folded.find(|entry| entry.identity() == identity);
            entry.map(|entry| entry.label())
        })
    }

    /// The last place record that an entry had when a record came.
    fn place_before(&self, identity: Identity, record: Record) -> Option<Record<'a>> {
        self.last_before(Some(record), |one| {
            let places = matches!(one.operation(), Operation::Rename | Operation::Move);
            one.identity() == identity || places && one.object() == Some(identity)
        })
    }

    /// An identity with the label that its entry had when a record came.
    fn name_before(&self, identity: Identity, record: Record) -> String {
        match self.label_before(identity, record) {
            Some(label) => format!("{identity} {}", quoted(label)),
            None => self.name(identity),
        }
    }

    /// Whether a record stands aside under 15 before a label that differs from its
    /// own in capitals and small letters.
    fn by_case(&self, aside: Aside, record: Record) -> bool {
        let held = aside
            .marks()
            .and_then(|marked| self.label_before(marked, record));
        aside.reason() == 15 && held != record.label()
    }

    /// The records that were judged otherwise before version 4, when capitals were
    /// told from small letters and an entry held its label against its own rename.
    /// If there are none, the file reads as it did: the first record that is judged
    /// otherwise is always among them. A file with a move or a base was not read at
    /// all.
    pub fn otherwise(&self) -> Otherwise {
        let mut otherwise = Otherwise::default();
        if self.moves() > 0 || !self.base.is_empty() {
            return otherwise;
        }
        for &record in &self.records {
            let identity = record.identity();
            match (self.aside(identity), record.object()) {
                (Some(aside), _) if self.by_case(aside, record) => otherwise.aside.push(identity),
                (None, Some(object))
                    if record.operation() == Operation::Rename
                        && self.label_before(object, record) == record.label() =>
                {
                    otherwise.acting.push(identity)
                }
                _ => {}
            }
        }
        otherwise
    }

    /// How many of the records are moves, which no analyser before version 5 takes.
    pub fn moves(&self) -> usize {
        let is_move = |record: &&Record| record.operation() == Operation::Move;
        self.records.iter().filter(is_move).count()
    }

    /// What a record did, or wanted to do if it stands aside; without who and
    /// when.
    pub fn what(&self, record: Record) -> String {
        let name = |identity: Option<Identity>| {
            let named = identity.map(|identity| match record.operation() {
                Operation::Settle => identity.to_string(),
                _ => self.name_before(identity, record),
            });
            named.unwrap_or_default()
        };
        let (object, folder) = (name(record.object()), name(record.folder()));
        let label = quoted(record.label().unwrap_or_default());
        let (did, wanted, what) = match record.operation() {
            Operation::MakeFolder => ("made", "make", format!("the folder {label} in {folder}")),
            Operation::MakeTrace => ("made", "make", format!("the trace {label} in {folder}")),
            Operation::Store => ("stored", "store", format!("to {object}")),
            Operation::Remove => ("removed", "remove", object),
            Operation::Rename => ("renamed", "rename", format!("{object} to {label}")),
            Operation::Settle => ("settled", "settle", object),
            Operation::Move => {
                let before = record.object();
                let before = before.and_then(|entry| self.label_before(entry, record));
                let under = match before == record.label() {
                    true => String::new(),
                    false => format!(" as {label}"),
                };
                ("moved", "move", format!("{object} to {folder}{under}"))
            }
        };
        match self.aside(record.identity()) {
            None => format!("{did} {what}"),
            Some(_) => format!("wanted to {wanted} {what}"),
        }
    }

    /// Who did what and when.
    pub fn sentence(&self, record: Record) -> String {
        format!(
            "unit {} {} on {}",
            record.unit(),
            self.what(record),
            record.date()
        )
    }

    /// The last record before another, by rank, or of all, that acts and is of
    /// this kind.
    fn last_before(
        &self,
        record: Option<Record>,
        is: impl Fn(Record) -> bool,
    ) -> Option<Record<'a>> {
        let at = match record {
            Some(record) => *self.places.get(&record.identity())?,
            None => self.records.len(),
        };
        let acting = |one: &&Record| !self.asides.contains_key(&one.identity());
        let before = self.records[..at].iter().rev();
        before.filter(acting).copied().find(|one| is(*one))
    }

    /// Why an entry is not in the tree for a record, or now; the aside that is to
    /// blame.
    pub fn absent(&self, entry: Identity, record: Option<Record>) -> (String, Option<Identity>) {
        let removes =
            |one: Record| one.operation() == Operation::Remove && one.object() == Some(entry);
        if let Some(remove) = self.last_before(record, removes) {
            return (format!("removed by {}", self.brief(remove)), None);
        }
        match self.record(entry) {
            Some(make) if make.operation().is_make() => (
                format!("its own make, {entry}, stands aside"),
                self.aside(entry).map(|aside| aside.identity()),
            ),
            Some(other) => (
                format!("{entry} is a {}, no entry", other.operation()),
                None,
            ),
            None if self.base.has_folded(entry) => {
                ("what became of it is folded".to_string(), None)
            }
            None => ("it is not held".to_string(), None),
        }
    }

    /// A record with who and when, in brackets.
    pub fn brief(&self, record: Record) -> String {
        format!(
            "{} (unit {}, {})",
            record.identity(),
            record.unit(),
            record.date()
        )
    }

    /// The last change of an entry that a record had not seen.
    fn unseen_change(&self, record: Record) -> Option<(Record<'a>, &'static str)> {
        let entry = record.object()?;
        let unseen = |one: &Record| record.seen().lacks(one.identity());
        let contents = || {
            let stores = |one: Record| {
                one.identity() == entry
                    || one.operation() == Operation::Store && one.object() == Some(entry)
            };
            let last = self.last_before(Some(record), stores).filter(unseen);
            last.map(|one| (one, "its contents"))
        };
        let place = || {
            let last = self.place_before(entry, record).filter(unseen);
            last.map(|one| match one.operation() {
                Operation::Move => (one, "its place"),
                _ => (one, "its label"),
            })
        };
        match record.operation() {
            Operation::Store => contents(),
            Operation::Rename | Operation::Move => place(),
            _ => contents().or_else(place),
        }
    }

    /// Why a record stands aside, and the aside that is to blame, if one is.
    fn because(&self, aside: Aside, record: Record) -> (String, Option<Identity>) {
        let marked = aside.marks();
        let marked = marked.map(|marked| self.name_before(marked, record));
        let marked = marked.unwrap_or_default();
        let words = match aside.reason() {
            12 | 13 => {
                let (entry, what) = match aside.reason() {
                    12 => (record.object(), "that"),
                    _ => (record.folder(), "that folder"),
                };
                let (why, blame) = self.absent(entry.unwrap_or(Identity::ROOT), Some(record));
                return (format!("but {what} was not there: {why}"), blame);
            }
            14 if record.operation().has_folder() => {
                format!("but {marked} is a trace, not a folder")
            }
            14 => format!("but {marked} is a folder, not a trace"),
            15 => {
                let case = if self.by_case(aside, record) {
                    " in another case"
                } else {
                    ""
                };
                format!(
                    "but that folder had an entry of this label{case}: {marked}{}",
                    self.from(aside)
                )
            }
            16 => "but it had entries".to_string(),
            17 => match self.unseen_change(record) {
                Some((change, what)) => format!(
                    "but had not seen the last change of {what}: {}",
                    self.brief(change)
                ),
                None => "but had not seen the last change".to_string(),
            },
            18 => "but that record does not stand aside".to_string(),
            25 if record.folder() == record.object() => {
                "but a folder cannot go into itself".to_string()
            }
            25 => "but that folder lay in it, and a folder cannot go below itself".to_string(),
            reason => format!("reason {reason}"),
        };
        (words, None)
    }

    /// Who made the entry that an aside marks, or last stored to it, and when.
    fn from(&self, aside: Aside) -> String {
        let entry = aside.marks().and_then(|marked| self.entry(marked));
        let last = entry.and_then(|entry| self.record(entry.last_contents()));
        last.map(|last| format!(" of unit {}, {}", last.unit(), last.date()))
            .unwrap_or_default()
    }

    /// Why a wish was refused with a number of its fit, with the entry named.
    pub fn unfit(&self, number: u8, wish: &Wished) -> Option<String> {
        let entry = match number {
            13..=15 => wish.folder.or(wish.object),
            _ => wish.object.or(wish.folder),
        }?;
        let name = self.name(entry);
        match number {
            12 | 13 => Some(format!("{name}: {}", self.absent(entry, None).0)),
            14 => {
                let kind = kind_word(self.entry(entry)?.kind());
                Some(format!("{name} is a {kind}"))
            }
            15 => {
                let inside = match wish.folder {
                    Some(folder) => folder,
                    None => self.entry(entry)?.folder(),
                };
                let holder = self.tree.find(inside, wish.label?)?;
                let kind = kind_word(holder.kind());
                Some(format!("the {kind} {} has it", holder.identity()))
            }
            16 => {
                let inside = self.inside(entry);
                let first = inside.first()?.identity();
                match inside.len() {
                    1 => Some(format!("{name} has {}", self.name(first))),
                    count => Some(format!("{name} has {count}, as {}", self.name(first))),
                }
            }
            18 => {
                let record = self.record(entry)?;
                Some(format!("{entry} acts: {}", self.sentence(record)))
            }
            25 if wish.folder == wish.object => Some(format!("into {name} itself")),
            25 => Some(format!("{} lies in {name}", self.name(wish.folder?))),
            _ => None,
        }
    }

    /// Who settled an aside.
    fn settler(&self, aside: Identity) -> Option<Record<'a>> {
        self.records.iter().copied().find(|record| {
            record.operation() == Operation::Settle
                && record.object() == Some(aside)
                && self.aside(record.identity()).is_none()
        })
    }

    /// What to do about an open aside, before it is settled; none if there is
    /// nothing left to change.
    fn remedy(&self, aside: Aside, record: Record) -> Option<String> {
        let marked = aside.marks().map(|marked| marked.to_string());
        let marked = marked.unwrap_or_default();
        let operation = record.operation();
        let words = match (aside.reason(), operation) {
            (12, Operation::Store) => "if its measurement counts, make a trace with its mark",
            (12, _) | (18, _) => return None,
            (13, Operation::Move) => "if it is still wanted, move it to a folder that is there",
            (13, _) => "if it is still wanted, make it again in a folder that is there",
            (14, Operation::Store) => "if its measurement counts, store it to a trace",
            (14, Operation::Move) => "if it is still wanted, move it to a folder",
            (14, _) => "if it is still wanted, make it again in a folder",
            (15, Operation::MakeTrace) => {
                return Some(format!(
                    "look at both; make it again under another label, or store to {marked}"
                ));
            }
            (15, Operation::MakeFolder) => {
                return Some(format!(
                    "use {marked}, or make it again under another label"
                ));
            }
            (15, Operation::Move) => "if it is still wanted, move it there under another label",
            (15, _) => "if it is still wanted, rename it to another label",
            (16, _) => "if the folder is still to go, remove its entries first, then the folder",
            (17, Operation::Store) => "look at both; store again what shall stay",
            (17, Operation::Remove) => "look at the change; remove it again if it is still to go",
            (17, Operation::Move) => "look at both places; move it again if it is still wanted",
            (17, _) => "look at both labels; rename it again if it is still wanted",
            (25, _) => "if it is still wanted, move it to a folder that does not lie in it",
            _ => "look at both records and decide",
        };
        Some(words.to_string())
    }

    /// An aside in words.
    pub fn told(&self, aside: Aside) -> Told {
        let identity = aside.identity();
        let Some(record) = self.record(identity) else {
            return self.told_of_folded(aside);
        };
        let (because, blame) = self.because(aside, record);
        let stake = match (blame, record.mark()) {
            (_, Some(mark)) if !self.entries.values().any(|one| one.mark() == Some(mark)) => {
                Stake::Work
            }
            (Some(blame), _) => Stake::Follows(blame),
            _ => Stake::Nothing,
        };
        let todo = match self.settler(identity) {
            Some(settle) if !aside.is_open() => format!("settled by {}", self.brief(settle)),
            _ => match (self.remedy(aside, record), blame) {
                (Some(remedy), None) => format!("{remedy}; then settle {identity}"),
                (Some(remedy), Some(blame)) => {
                    format!("look after {blame} first; {remedy}; then settle {identity}")
                }
                (None, _) => format!("nothing is left to change: settle {identity}"),
            },
        };
        Told {
            did: self.sentence(record),
            because,
            todo,
            stake,
        }
    }

    /// An aside whose record is folded, in words: what it did is not known any more.
    fn told_of_folded(&self, aside: Aside) -> Told {
        let identity = aside.identity();
        let marked = aside.marks().map(|marked| self.name(marked));
        let marked = marked.map_or(String::new(), |marked| format!(", marks {marked}"));
        let settled = self.settler(identity).map(|settle| self.brief(settle));
        let todo = match (aside.is_open(), settled) {
            (true, _) => format!("look at the card from before the fold, then settle {identity}"),
            (false, Some(settle)) => format!("settled by {settle}"),
            (false, None) => "settled".to_string(),
        };
        Told {
            did: format!("record {identity} of unit {} is folded", identity.unit()),
            because: format!("it stood aside under reason {}{marked}", aside.reason()),
            todo,
            stake: Stake::Nothing,
        }
    }

    /// The object of an aside.
    pub fn aside_object(&self, aside: Aside) -> Object {
        let told = self.told(aside);
        let record = self.record(aside.identity());
        Object::new("aside")
            .text("id", aside.identity())
            .number("reason", aside.reason())
            .maybe("marks", aside.marks())
            .text("state", state(aside))
            .number("unit", aside.identity().unit().number())
            .maybe("operation", record.map(|record| record.operation()))
            .maybe("date", record.map(|record| record.date()))
            .maybe("label", record.and_then(Record::label))
            .maybe("mark", record.and_then(Record::mark))
            .text("stake", told.stake.word())
            .text("words", told.words())
            .text("todo", told.todo)
    }

    /// The object of an entry.
    pub fn entry_object(&self, entry: Entry) -> Object {
        Object::new("entry")
            .text("kind", kind_word(entry.kind()))
            .text("id", entry.identity())
            .text("in", entry.folder())
            .text("path", self.path(entry.identity()))
            .text("label", entry.label())
            .text("date", entry.date())
            .maybe("mark", entry.mark())
            .truth("disputed", entry.is_disputed())
            .texts("by", self.disputing(entry.identity()))
    }

    /// How many folders, traces and asides there are.
    pub fn totals(&self) -> Totals {
        let folders = |entry: &&Entry| entry.kind() == Kind::Folder;
        let folders = self.entries.values().filter(folders).count();
        Totals {
            folders,
            traces: self.entries.len() - folders,
            disputed: self
                .entries
                .values()
                .filter(|entry| entry.is_disputed())
                .count(),
            asides: self.asides.len(),
            open: self.asides.values().filter(|aside| aside.is_open()).count(),
        }
    }
}

/// The records of a file that were judged otherwise before version 4, by rank.
#[derive(Debug, Default)]
pub struct Otherwise {
    /// They stand aside now, because of capitals and small letters alone.
    pub aside: Vec<Identity>,
    /// They act now: renames to the label that the entry had.
    pub acting: Vec<Identity>,
}

impl Otherwise {
    /// In words; none if the file reads as it did.
    pub fn words(&self) -> Option<String> {
        let (aside, acting) = (named(&self.aside), named(&self.acting));
        let parts: Vec<String> = [
            aside.map(|(names, one)| {
                let stand = if one { "stands" } else { "stand" };
                format!("{names} {stand} aside because of capitals and small letters alone")
            }),
            acting.map(|(names, one)| match one {
                true => format!("{names} acts, a rename to the label that the entry had"),
                false => format!("{names} act, renames to the label that the entry had"),
            }),
        ]
        .into_iter()
        .flatten()
        .collect();
        let parts = parts.join("; ");
        (!parts.is_empty()).then(|| format!("reads otherwise than before version 4: {parts}"))
    }
}

/// How many identities are named before the rest is only counted.
const NAMED: usize = 6;

/// Identities in a row, and whether there is one alone.
fn named(identities: &[Identity]) -> Option<(String, bool)> {
    let first = identities.iter().take(NAMED);
    let names: Vec<String> = first.map(Identity::to_string).collect();
    let mut text = names.join(", ");
    if identities.len() > NAMED {
        text += &format!(" and {} more", identities.len() - NAMED);
    }
    (!identities.is_empty()).then_some((text, identities.len() == 1))
}

/// Open or settled.
pub fn state(aside: Aside) -> &'static str {
    if aside.is_open() { "open" } else { "settled" }
}

/// How many there are of each kind.
pub struct Totals {
    /// Folders, the root apart.
    pub folders: usize,
    /// Traces.
    pub traces: usize,
    /// Entries that an open aside marks.
    pub disputed: usize,
    /// Records that stand aside.
    pub asides: usize,
    /// Those of them that nobody has settled.
    pub open: usize,
}

impl Totals {
    /// Of the entries, in words.
    pub fn entries(&self) -> String {
        let entries = format!(
            "{}, {}",
            counted(self.folders, "folder"),
            counted(self.traces, "trace")
        );
        match self.disputed {
            0 => entries,
            some => format!("{entries}, {some} disputed"),
        }
    }

    /// Of the asides, in words.
    pub fn aside_words(&self) -> String {
        match self.asides {
            0 => "nothing stands aside".to_string(),
            some => format!("{}, {} open", counted(some, "aside"), self.open),
        }
    }
}
