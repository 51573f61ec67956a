//! The tree of a unit.

use crate::record::text_of;
use crate::{Answer, Date, Identity, Mark, raw};

const ENTRY: usize = 72;
const ASIDE: usize = 12;
const ENTRIES: usize = 4;
const ASIDES: usize = ENTRIES + 1024 * ENTRY;

/// The folders and traces of a unit, and the records that stand aside; those that
/// folded records made are among them.
#[derive(Clone, Debug, PartialEq, Eq)]
pub struct Tree(Vec<u8>);

impl Tree {
    pub(crate) fn new(table: Vec<u8>) -> Tree {
        Tree(table)
    }

    pub(crate) fn of(log: &[u8], base: &[u8]) -> Answer<Tree> {
        let mut tree = vec![0; raw::TREE];
        raw::show(log, base, &mut tree)?;
        Ok(Tree(tree))
    }

    /// The table's bytes, as the library writes them.
    pub fn as_bytes(&self) -> &[u8] {
        &self.0
    }

    /// The entries, by rank of the records that made them.
    pub fn entries(&self) -> impl ExactSizeIterator<Item = Entry<'_>> + DoubleEndedIterator {
        rows(&self.0, ENTRIES, 0).iter().map(Entry)
    }

    /// The records that stand aside, by rank.
    pub fn asides(&self) -> impl ExactSizeIterator<Item = Aside<'_>> + DoubleEndedIterator {
        rows(&self.0, ASIDES, 2).iter().map(Aside)
    }

    /// The entry of an identity, if it is in the tree.
    pub fn entry(&self, identity: Identity) -> Option<Entry<'_>> {
        self.entries().find(|entry| entry.identity() == identity)
    }

    /// The entries of a folder, or of the root.
    pub fn entries_in(&self, folder: Identity) -> impl Iterator<Item = Entry<'_>> {
        self.entries().filter(move |entry| entry.folder() == folder)
    }

    /// The entry of that label, in capitals or small letters, in a folder or in
    /// the root.
    pub fn find(&self, folder: Identity, label: &str) -> Option<Entry<'_>> {
        let has = |entry: &Entry| entry.label().eq_ignore_ascii_case(label);
        self.entries_in(folder).find(has)
    }
}

/// The rows of one length in a table, the count of which stands at an offset.
pub(crate) fn rows<const LENGTH: usize>(
    table: &[u8],
    begin: usize,
    count: usize,
) -> &[[u8; LENGTH]] {
    let count = u16::from_le_bytes([table[count], table[count + 1]]);
    let (rows, _) = table[begin..].as_chunks();
    &rows[..usize::from(count)]
}

/// What an entry is.
#[derive(Clone, Copy, Debug, PartialEq, Eq, Hash)]
pub enum Kind {
    /// A folder, which may have entries.
    Folder,
    /// A trace, which has a mark.
    Trace,
}

/// A folder or a trace in the tree.
#[derive(Clone, Copy, Debug, PartialEq, Eq, Hash)]
pub struct Entry<'a>(pub(crate) &'a [u8; ENTRY]);

impl<'a> Entry<'a> {
    /// Folder or trace.
    pub const fn kind(self) -> Kind {
        match self.0[0] {
            1 => Kind::Folder,
            _ => Kind::Trace,
        }
    }

    /// An open aside marks it.
    pub const fn is_disputed(self) -> bool {
        self.0[1] == 1
    }

    /// The identity of the record that made it.
    pub fn identity(self) -> Identity {
        Identity::of(&self.0[4..])
    }

    /// The folder that it lies in.
    pub fn folder(self) -> Identity {
        Identity::of(&self.0[8..])
    }

    /// The record that gave its date and mark: the make or the last store.
    pub fn last_contents(self) -> Identity {
        Identity::of(&self.0[12..])
    }

    /// The record that gave its label, and the last that could give its folder: the
    /// make or the last rename or move.
    pub fn last_place(self) -> Identity {
        Identity::of(&self.0[16..])
    }

    /// The date of the last contents record.
    pub fn date(self) -> Date {
        Date::of(&self.0[20..])
    }

    /// Its label, as it was written.
    pub fn label(self) -> &'a str {
        text_of(&self.0[24..56])
    }

    /// The mark of a trace.
    pub fn mark(self) -> Option<Mark> {
        match self.kind() {
            Kind::Folder => None,
            Kind::Trace => Some(Mark::of(&self.0[56..])),
        }
    }
}

/// A record that stands aside.
#[derive(Clone, Copy, Debug, PartialEq, Eq, Hash)]
pub struct Aside<'a>(pub(crate) &'a [u8; ASIDE]);

impl Aside<'_> {
    /// The record.
    pub fn identity(self) -> Identity {
        Identity::of(self.0)
    }

    /// Why, 12 to 18 or 25; [`in_words`](crate::in_words) says it.
    pub const fn reason(self) -> u8 {
        self.0[4]
    }

    /// Nobody has settled it.
    pub const fn is_open(self) -> bool {
        self.0[5] == 1
    }

    /// The entry that it collides with, even if it was removed since.
    pub fn marks(self) -> Option<Identity> {
        Some(Identity::of(&self.0[8..])).filter(|marked| !marked.is_root())
    }
}
