//! The records of a log.

use crate::{Date, Identity, Mark, Operation, Unit, Vector, raw};
use std::slice;

/// A record of a log: a change that someone made. It is never altered.
#[derive(Clone, Copy, Debug, PartialEq, Eq, Hash)]
pub struct Record<'a>(&'a [u8; raw::WISH]);

impl<'a> Record<'a> {
    /// Its 80 bytes.
    pub const fn as_bytes(self) -> &'a [u8; raw::WISH] {
        self.0
    }

    /// Unit and number.
    pub fn identity(self) -> Identity {
        identity_in(self.0)
    }

    /// Who made it.
    pub fn unit(self) -> Unit {
        self.identity().unit()
    }

    /// What it does.
    pub const fn operation(self) -> Operation {
        Operation::of(self.0[1])
    }

    /// The vector that its maker held just before.
    pub fn seen(self) -> Vector {
        Vector::from_bytes(&std::array::from_fn(|i| self.0[4 + i]))
    }

    /// The entry that it changes, or the record that it settles; a make has none.
    pub fn object(self) -> Option<Identity> {
        let has = self.operation().has_object();
        has.then(|| Identity::of(&self.0[20..]))
    }

    /// The folder into which it puts an entry; only a make or a move has one.
    pub fn folder(self) -> Option<Identity> {
        let has = self.operation().has_folder();
        has.then(|| Identity::of(&self.0[24..]))
    }

    /// When it was made.
    pub fn date(self) -> Date {
        Date::of(&self.0[28..])
    }

    /// The label that it gives.
    pub fn label(self) -> Option<&'a str> {
        let has = self.operation().has_label();
        has.then(|| text_of(&self.0[32..64]))
    }

    /// The mark that it gives.
    pub fn mark(self) -> Option<Mark> {
        let has = self.operation().has_mark();
        has.then(|| Mark::of(&self.0[64..]))
    }
}

/// Unit and number of a record's bytes.
pub(crate) fn identity_in(record: &[u8; raw::WISH]) -> Identity {
    Identity::of(&[record[0], 0, record[2], record[3]])
}

/// The text of a label: what stands before the first zero byte.
pub(crate) fn text_of(label: &[u8]) -> &str {
    let text = label.split(|byte| *byte == 0).next().unwrap_or_default();
    str::from_utf8(text).unwrap_or_default()
}

/// The records of a log, by rank.
#[derive(Clone, Debug)]
pub struct Records<'a>(slice::Iter<'a, [u8; raw::WISH]>);

impl<'a> Records<'a> {
    /// Of a sound log: its records stand in the first places, and have numbers.
    pub(crate) fn of(log: &'a [u8; raw::LOG]) -> Records<'a> {
        let (places, _) = log.as_chunks();
        let count = places.partition_point(|record| record[2..4] != [0, 0]);
        Records(places[..count].iter())
    }
}

impl<'a> Iterator for Records<'a> {
    type Item = Record<'a>;

    fn next(&mut self) -> Option<Record<'a>> {
        self.0.next().map(Record)
    }

    fn size_hint(&self) -> (usize, Option<usize>) {
        self.0.size_hint()
    }
}

impl DoubleEndedIterator for Records<'_> {
    fn next_back(&mut self) -> Option<Self::Item> {
        self.0.next_back().map(Record)
    }
}

impl ExactSizeIterator for Records<'_> {}
