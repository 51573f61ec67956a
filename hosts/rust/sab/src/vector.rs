//! Version vectors.

use crate::{Identity, Unit, Unreadable, raw};
use std::fmt;
use std::ops::Index;
use std::str::FromStr;

/// Eight counts, one for each unit: of unit u the records 1 to count are held.
///
/// ```
/// use sab::{Comparison, Unit, Vector};
/// let one = Vector::from([2, 1, 1, 0, 0, 0, 0, 0]);
/// let other: Vector = "1 2 1 0 0 0 0 0".parse()?;
/// assert_eq!(one.compare(&other), Comparison::BothAhead);
/// assert_eq!(one.distance(&other).first_lacks, 1);
/// assert!(!one.covers(&other));
/// assert_eq!(one[Unit::ALL[0]], 2);
/// assert_eq!(one.to_string(), "2 1 1 0 0 0 0 0");
/// # Ok::<(), sab::Unreadable>(())
/// ```
#[derive(Clone, Copy, Debug, Default, PartialEq, Eq, Hash)]
pub struct Vector([u16; 8]);

/// How two vectors stand to each other.
#[derive(Clone, Copy, Debug, PartialEq, Eq, Hash)]
pub enum Comparison {
    /// Identical: units that hold them hold the same records.
    Identical,
    /// Every count of the first is at least the second's, and some are above.
    FirstAhead,
    /// The other way round.
    SecondAhead,
    /// Each has a count above the other's.
    BothAhead,
}

/// How far two vectors are apart.
#[derive(Clone, Copy, Debug, PartialEq, Eq, Hash)]
pub struct Distance {
    /// How they stand to each other.
    pub comparison: Comparison,
    /// How many records the first lacks: the sum, over the units, of what the
    /// second counts more.
    pub first_lacks: u32,
    /// How many records the second lacks.
    pub second_lacks: u32,
}

/// How many blocks bring so many records: six pass with each.
pub const fn blocks_for(records: u32) -> u32 {
    records.div_ceil(6)
}

impl Vector {
    /// The eight counts, unit 0 first.
    pub const fn counts(&self) -> &[u16; 8] {
        &self.0
    }

    /// How many records it counts in all.
    pub fn sum(&self) -> u32 {
        self.0.iter().map(|count| u32::from(*count)).sum()
    }

    /// How it stands to another, by the library.
    pub fn compare(&self, other: &Vector) -> Comparison {
        self.distance(other).comparison
    }

    /// How it stands to another, and how many records each lacks, by the library.
    pub fn distance(&self, other: &Vector) -> Distance {
        let compared = raw::compare(&self.0, &other.0);
        Distance {
            comparison: match compared.answer {
                0 => Comparison::Identical,
                1 => Comparison::FirstAhead,
                2 => Comparison::SecondAhead,
                _ => Comparison::BothAhead,
            },
            first_lacks: compared.first_lacks,
            second_lacks: compared.second_lacks,
        }
    }

    /// Every count is at least the other's.
    pub fn covers(&self, other: &Vector) -> bool {
        matches!(
            self.compare(other),
            Comparison::Identical | Comparison::FirstAhead
        )
    }

    /// It lacks a record: the number is above the count.
    pub fn lacks(&self, identity: Identity) -> bool {
        identity.number() > self[identity.unit()]
    }

    /// The vector as it is sent: 16 bytes, little-endian, unit 0 first.
    pub fn to_bytes(&self) -> [u8; raw::VECTOR] {
        raw::vector_bytes(&self.0)
    }

    /// The vector that was sent so.
    pub fn from_bytes(bytes: &[u8; raw::VECTOR]) -> Vector {
        Vector(raw::vector_of(bytes))
    }

    /// Of each unit the greater count: what two units hold together.
    pub fn joined(&self, other: &Vector) -> Vector {
        Vector(std::array::from_fn(|unit| self.0[unit].max(other.0[unit])))
    }

    /// Of each unit the lesser count.
    pub fn common(&self, other: &Vector) -> Vector {
        Vector(std::array::from_fn(|unit| self.0[unit].min(other.0[unit])))
    }

    /// With every count above 0 lowered by one.
    pub fn lowered(&self) -> Vector {
        Vector(self.0.map(|count| count.saturating_sub(1)))
    }

    /// Counts a record, if it is the unit's next.
    pub(crate) fn raise(&mut self, identity: Identity) {
        let count = &mut self.0[identity.unit().index()];
        if count.checked_add(1) == Some(identity.number()) {
            *count = identity.number();
        }
    }
}

impl From<[u16; 8]> for Vector {
    fn from(counts: [u16; 8]) -> Vector {
        Vector(counts)
    }
}

impl Index<Unit> for Vector {
    type Output = u16;

    fn index(&self, unit: Unit) -> &u16 {
        &self.0[unit.index()]
    }
}

impl FromStr for Vector {
    type Err = Unreadable;

    fn from_str(text: &str) -> Result<Vector, Unreadable> {
        let read = || {
            let counts: Option<Vec<u16>> = text.split(' ').map(crate::unit::decimal).collect();
            counts?.try_into().ok().map(Vector)
        };
        read().ok_or(Unreadable {
            wanted: "a vector, eight counts parted by spaces",
        })
    }
}

/// The counts in decimal, parted by spaces, as in a listing.
impl fmt::Display for Vector {
    fn fmt(&self, f: &mut fmt::Formatter<'_>) -> fmt::Result {
        f.pad(&self.0.map(|count| count.to_string()).join(" "))
    }
}
