//! Files of either form, and the way from one to the other.

use crate::{Answer, raw};
use std::fmt;

/// The form of a file.
#[derive(Clone, Copy, Debug, PartialEq, Eq, Hash)]
pub enum Form {
    /// The records of a log in which nothing is folded, without its list.
    Sab1,
    /// List and base, then the records.
    Sab2,
}

impl Form {
    /// The form that a file's first four bytes choose: SAB2 or, whatever else they
    /// are, SAB1.
    pub fn of(file: &[u8]) -> Form {
        match file.starts_with(b"SAB2") {
            true => Form::Sab2,
            false => Form::Sab1,
        }
    }
}

impl fmt::Display for Form {
    fn fmt(&self, f: &mut fmt::Formatter<'_>) -> fmt::Result {
        f.pad(match self {
            Form::Sab1 => "SAB1",
            Form::Sab2 => "SAB2",
        })
    }
}

/// The file that a call writes into lent memory and counts the blocks of.
pub(crate) fn lent(length: usize, call: impl FnOnce(&mut [u8]) -> Answer<u16>) -> Answer<Vec<u8>> {
    let mut file = vec![0; length];
    let blocks = call(&mut file)?;
    file.truncate(raw::BLOCK * usize::from(blocks));
    Ok(file)
}

/// The SAB2 file of an SAB1 file: the same records, archive and unit, nothing
/// folded, and all eight units listed. Refuses what reading an SAB1 file refuses;
/// one of the form SAB2 with 3, or 2.
///
/// ```
/// use sab::{Form, Log, Unit, to_sab1, to_sab2};
/// # fn main() -> Result<(), sab::Refusal> {
/// let card = Log::start(7, Unit::ALL[0]).write_file()?;
/// let newer = to_sab2(&card)?;
/// assert_eq!(Form::of(&newer), Form::Sab2);
/// assert_eq!(Log::read_file(&newer)?, Log::read_file(&card)?);
/// assert_eq!(to_sab1(&newer)?, card);
/// # Ok(())
/// # }
/// ```
pub fn to_sab2(file: &[u8]) -> Answer<Vec<u8>> {
    lent(raw::SAB2, |out| raw::to_sab2(file, out))
}

/// The SAB1 file of an SAB2 file in which nothing is folded: the same records,
/// archive and unit. Its list is lost. Refuses what reading an SAB2 file refuses,
/// one of the form SAB1 with 3; then 29 if records are folded.
pub fn to_sab1(file: &[u8]) -> Answer<Vec<u8>> {
    lent(raw::FILE, |out| raw::to_sab1(file, out))
}
