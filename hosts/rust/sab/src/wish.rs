//! What a unit wishes to record.

use crate::{Answer, Date, Identity, Mark, Operation, Refusal, Unit, raw};

/// A record that a unit wishes to make; [`Log::act`](crate::Log::act) makes it if
/// it fits.
#[derive(Clone, Copy, Debug, PartialEq, Eq, Hash)]
pub struct Wish([u8; raw::WISH]);

impl Wish {
    /// A folder in a folder, or in the root. Refused with 7 if the label is
    /// longer than 32 bytes or has a zero; the act judges the rest, a stroke in
    /// it with 24.
    pub fn make_folder(folder: Identity, label: &str, date: Date) -> Answer<Wish> {
        Wish::of(Operation::MakeFolder, date)
            .in_folder(folder)
            .with_label(label)
    }

    /// A trace in a folder, or in the root. Refused with 7 if the label is longer
    /// than 32 bytes or has a zero; the act judges the rest.
    pub fn make_trace(folder: Identity, label: &str, date: Date, mark: Mark) -> Answer<Wish> {
        Wish::of(Operation::MakeTrace, date)
            .in_folder(folder)
            .with_mark(mark)
            .with_label(label)
    }

    /// Another mark and date for a trace.
    pub fn store(trace: Identity, date: Date, mark: Mark) -> Wish {
        Wish::of(Operation::Store, date).on(trace).with_mark(mark)
    }

    /// The removal of an entry.
    pub fn remove(entry: Identity, date: Date) -> Wish {
        Wish::of(Operation::Remove, date).on(entry)
    }

    /// Another label for an entry. Refused with 7 if it is longer than 32 bytes
    /// or has a zero; the act judges the rest.
    pub fn rename(entry: Identity, label: &str, date: Date) -> Answer<Wish> {
        Wish::of(Operation::Rename, date)
            .on(entry)
            .with_label(label)
    }

    /// Another folder, or the root, for an entry, and its label there. Refused with
    /// 7 if the label is longer than 32 bytes or has a zero; the act judges the
    /// rest, an entry at or below itself with 25.
    pub fn move_to(
        entry: Identity,
        folder: Identity,
        label: &str,
        date: Date,
    ) -> Answer<Wish> {
        Wish::of(Operation::Move, date)
            .on(entry)
            .in_folder(folder)
            .with_label(label)
    }

    /// That a record that stands aside was looked after.
    pub fn settle(aside: Identity, date: Date) -> Wish {
        Wish::of(Operation::Settle, date).on(aside)
    }

    /// A wish of any bytes, whose unit is not read; the act judges the rest.
    pub const fn from_bytes(bytes: [u8; raw::WISH]) -> Wish {
        Wish(bytes)
    }

    /// The wish's bytes as an act of that unit is given them.
    pub fn to_bytes(&self, unit: Unit) -> [u8; raw::WISH] {
        let mut bytes = self.0;
        bytes[0] = unit.number();
        bytes
    }

    fn of(operation: Operation, date: Date) -> Wish {
        let mut bytes = [0; raw::WISH];
        bytes[1] = operation.number();
        bytes[28..32].copy_from_slice(&date.to_bytes());
        Wish(bytes)
    }

    fn on(mut self, object: Identity) -> Wish {
        self.0[20..24].copy_from_slice(&object.to_bytes());
        self
    }

    fn in_folder(mut self, folder: Identity) -> Wish {
        self.0[24..28].copy_from_slice(&folder.to_bytes());
        self
    }

    fn with_mark(mut self, mark: Mark) -> Wish {
        self.0[64..].copy_from_slice(&mark.0);
        self
    }

    fn with_label(mut self, label: &str) -> Answer<Wish> {
        match self.0[32..64].get_mut(..label.len()) {
            Some(place) if !label.contains('\0') => place.copy_from_slice(label.as_bytes()),
            _ => return Err(Refusal::new(7)),
        }
        Ok(self)
    }
}
