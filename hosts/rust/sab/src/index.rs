//! The ordered index of a unit's tree.

use crate::record::text_of;
use crate::{Answer, Identity, Unit, raw, work};
use std::fmt;

const ROW: usize = 40;

/// The entries of a tree by folder, then by label: by the folder's unit, its
/// number, and the bytes of the label, A to Z as a to z.
/// [`Log::keep_index`](crate::Log::keep_index) has one kept with a log.
///
/// ```
/// use sab::{Date, Identity, Log, Mark, Unit, Wish};
/// # fn main() -> Result<(), sab::Refusal> {
/// let day = Date::new(2025, 3, 3);
/// let mut van = Log::start(7, Unit::ALL[0]);
/// van.keep_index()?;
/// let bench = van.act(&Wish::make_folder(Identity::ROOT, "Bench", day)?)?;
/// let noise = van.act(&Wish::make_trace(bench, "Noise", day, Mark([1; 16]))?)?;
/// let gain = van.act(&Wish::make_trace(bench, "Gain", day, Mark([2; 16]))?)?;
///
/// let index = van.index().expect("one is kept");
/// assert_eq!(index.find(bench, "Gain"), Some(gain));
/// assert_eq!(index.find(bench, "GAIN"), Some(gain));
/// assert_eq!(index.find(Identity::ROOT, "Gain"), None);
/// let labels: Vec<&str> = index.entries_in(bench).map(|entry| entry.label()).collect();
/// assert_eq!(labels, ["Gain", "Noise"]);
/// assert!(index.entries_in(noise).next().is_none());
/// # Ok(())
/// # }
/// ```
#[derive(Clone, PartialEq, Eq)]
pub struct Index(Box<[u8; raw::INDEX]>);

impl Index {
    pub(crate) fn of(log: &[u8], base: &[u8]) -> Answer<Index> {
        let Ok(mut bytes) = <Box<[u8; raw::INDEX]>>::try_from(vec![0; raw::INDEX]) else {
            unreachable!("an index of its length");
        };
        work::lent(|work| raw::index(log, base, &mut *bytes, work))?;
        Ok(Index(bytes))
    }

    pub(crate) fn lent(&mut self) -> &mut [u8] {
        &mut *self.0
    }

    /// The bytes, as the library's calls are lent them.
    pub const fn as_bytes(&self) -> &[u8; raw::INDEX] {
        &self.0
    }

    fn rows(&self) -> &[[u8; ROW]] {
        self.0[4..].as_chunks().0
    }

    /// All entries, folder by folder.
    pub fn entries(&self) -> impl ExactSizeIterator<Item = Indexed<'_>> + DoubleEndedIterator {
        let count = u16::from_le_bytes([self.0[0], self.0[1]]);
        self.rows()[..usize::from(count)].iter().map(Indexed)
    }

    /// The entries of a folder, or of the root, by label. Of what is no folder
    /// there is none.
    pub fn entries_in(
        &self,
        folder: Identity,
    ) -> impl ExactSizeIterator<Item = Indexed<'_>> + DoubleEndedIterator {
        let (unit, number) = asked(folder);
        let (first, count) = match raw::list(&*self.0, unit, number) {
            Ok(range) => (range.first.into(), range.count.into()),
            Err(_) => (0, 0),
        };
        self.rows()[first..][..count].iter().map(Indexed)
    }

    /// The entry of a folder, or of the root, that has a label, in capitals or small
    /// letters. No entry has one that is empty, longer than 32 bytes, or has a zero.
    pub fn find(&self, folder: Identity, label: &str) -> Option<Identity> {
        let mut padded = [0; 32];
        let place = padded.get_mut(..label.len())?;
        place.copy_from_slice(label.as_bytes());
        if label.contains('\0') {
            return None;
        }
        let (unit, number) = asked(folder);
        let found = raw::find(&*self.0, unit, number, &padded);
        let (unit, number) = found.ok().flatten()?;
        Identity::new(Unit::of(unit), number)
    }
}

/// A folder as the calls are asked for it.
fn asked(folder: Identity) -> (u32, u32) {
    (folder.unit().number().into(), folder.number().into())
}

impl fmt::Debug for Index {
    fn fmt(&self, f: &mut fmt::Formatter<'_>) -> fmt::Result {
        f.debug_list().entries(self.entries()).finish()
    }
}

/// An entry as an index lists it.
#[derive(Clone, Copy, PartialEq, Eq, Hash)]
pub struct Indexed<'a>(&'a [u8; ROW]);

impl<'a> Indexed<'a> {
    /// The folder that it lies in.
    pub fn folder(self) -> Identity {
        Identity::of(self.0)
    }

    /// Its label, as it was written.
    pub fn label(self) -> &'a str {
        text_of(&self.0[4..36])
    }

    /// The entry; [`Tree::entry`](crate::Tree::entry) tells more of it.
    pub fn identity(self) -> Identity {
        Identity::of(&self.0[36..])
    }
}

impl fmt::Debug for Indexed<'_> {
    fn fmt(&self, f: &mut fmt::Formatter<'_>) -> fmt::Result {
        write!(
            f,
            "{} {:?} in {}",
            self.identity(),
            self.label(),
            self.folder()
        )
    }
}
