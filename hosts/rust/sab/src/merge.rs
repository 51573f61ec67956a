//! One file out of two.

use crate::{Refusal, raw};
use std::error::Error;
use std::fmt;

/// A merge's no: the refusal, and the file at fault.
///
/// ```
/// let clash = sab::MergeRefusal {
///     refusal: sab::Refusal { number: 10, place: 4 },
///     file: 2,
/// };
/// assert_eq!(
///     clash.to_string(),
///     "second file: refused 10 at 4: a record is held with other bytes: its number was used twice"
/// );
/// ```
#[derive(Clone, Copy, Debug, PartialEq, Eq, Hash)]
pub struct MergeRefusal {
    /// The refusal; its place is a block of the file at fault.
    pub refusal: Refusal,
    /// The file at fault, 1 or 2; 0, neither, for the number 1.
    pub file: u8,
}

impl fmt::Display for MergeRefusal {
    fn fmt(&self, f: &mut fmt::Formatter<'_>) -> fmt::Result {
        match self.file {
            1 => write!(f, "first file: ")?,
            2 => write!(f, "second file: ")?,
            _ => (),
        }
        self.refusal.fmt(f)
    }
}

impl Error for MergeRefusal {}

/// Makes one file of all records of two, both of the form SAB1 and of one archive,
/// under the unit of the first: the last card of a unit that is retired and its
/// successor's, say. Which comes first decides nothing but that unit.
///
/// Refuses what reading the first file refuses, then the second; then, of the
/// second, 6 for another archive, 10 for a record that the first has with other
/// bytes, 11 for a 513th record.
///
/// ```
/// use sab::{Date, Identity, Log, Unit, Wish, merge};
///
/// fn main() -> Result<(), Box<dyn std::error::Error>> {
///     let mut retired = Log::start(7, Unit::try_from(0)?);
///     let mut successor = Log::start(7, Unit::try_from(1)?);
///     let monday = Date::new(2025, 3, 3);
///     retired.act(&Wish::make_folder(Identity::ROOT, "Bench", monday)?)?;
///     successor.act(&Wish::make_folder(Identity::ROOT, "Roof", monday)?)?;
///
///     let both = merge(&successor.write_file()?, &retired.write_file()?)?;
///     let both = Log::read_file(&both)?;
///     assert_eq!(both.unit(), successor.unit());
///     assert_eq!(both.vector()?.to_string(), "1 1 0 0 0 0 0 0");
///     Ok(())
/// }
/// ```
pub fn merge(first: &[u8], second: &[u8]) -> Result<Vec<u8>, MergeRefusal> {
    let (mut log, mut file) = (vec![0; raw::LOG], vec![0; raw::FILE]);
    let blocks = raw::merge(first, second, &mut log, &mut file)?;
    file.truncate(raw::BLOCK * usize::from(blocks));
    Ok(file)
}
