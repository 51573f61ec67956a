//! The base of a unit: what its folded records left.

use crate::tree::{Aside, Entry, rows};
use crate::{Identity, Units, Vector, raw};
use std::fmt;

const ENTRIES: usize = 24;
const ASIDES: usize = 36_888;

/// The listed units, and what the folded records of a unit left: how many they
/// were, their entries, and those of them that stand aside. It lies beside the
/// log, and [`Log::fold`](crate::Log::fold) makes it.
#[derive(Clone, PartialEq, Eq)]
pub struct Base(Box<[u8; raw::BASE]>);

impl Base {
    /// Zeros, to be written by a call.
    pub(crate) fn zeros() -> Base {
        let Ok(bytes) = vec![0; raw::BASE].into_boxed_slice().try_into() else {
            unreachable!("a base of its length");
        };
        Base(bytes)
    }

    pub(crate) fn lent(&mut self) -> &mut [u8] {
        &mut *self.0
    }

    /// The bytes, as the library's calls are lent them.
    pub const fn as_bytes(&self) -> &[u8; raw::BASE] {
        &self.0
    }

    /// The units of the archive, as the last fold listed them; at first all eight.
    pub fn units(&self) -> Units {
        Units::from_byte(self.0[0])
    }

    /// How many records of each unit are folded.
    pub fn vector(&self) -> Vector {
        Vector::from_bytes(&std::array::from_fn(|i| self.0[8 + i]))
    }

    /// Nothing is folded.
    pub fn is_empty(&self) -> bool {
        self.vector().sum() == 0
    }

    /// A record is folded.
    pub fn has_folded(&self, identity: Identity) -> bool {
        !self.vector().lacks(identity)
    }

    /// The entries that were there after the last folded record, by rank of their
    /// makers. Their disputes are told by the [`Tree`](crate::Tree) alone.
    pub fn entries(&self) -> impl ExactSizeIterator<Item = Entry<'_>> + DoubleEndedIterator {
        rows(&*self.0, ENTRIES, 2).iter().map(Entry)
    }

    /// The folded records that stand aside, by rank, with the state they had then.
    pub fn asides(&self) -> impl ExactSizeIterator<Item = Aside<'_>> + DoubleEndedIterator {
        rows(&*self.0, ASIDES, 4).iter().map(Aside)
    }
}

impl fmt::Debug for Base {
    fn fmt(&self, f: &mut fmt::Formatter<'_>) -> fmt::Result {
        f.debug_struct("Base")
            .field("units", &self.units())
            .field("vector", &self.vector())
            .field("entries", &self.entries().len())
            .field("asides", &self.asides().len())
            .finish_non_exhaustive()
    }
}
