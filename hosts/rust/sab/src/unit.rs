//! Units, and the identities of their records.

use crate::{Refusal, Unreadable};
use std::fmt;
use std::str::FromStr;

/// An analyser: 0 to 7.
///
/// ```
/// use sab::{Refusal, Unit};
/// assert_eq!(Unit::try_from(7)?.to_string(), "7");
/// assert_eq!(Unit::try_from(256), Err(Refusal::new(21)));
/// # Ok::<(), Refusal>(())
/// ```
#[derive(Clone, Copy, Debug, PartialEq, Eq, PartialOrd, Ord, Hash)]
pub struct Unit(u8);

impl Unit {
    /// All eight.
    pub const ALL: [Unit; 8] = [
        Unit(0),
        Unit(1),
        Unit(2),
        Unit(3),
        Unit(4),
        Unit(5),
        Unit(6),
        Unit(7),
    ];

    /// The unit as a number.
    pub const fn number(self) -> u8 {
        self.0
    }

    pub(crate) const fn index(self) -> usize {
        self.0 as usize
    }

    /// The unit that a byte of a sound log or of a tree names.
    pub(crate) const fn of(byte: u8) -> Unit {
        Unit(byte & 7)
    }
}

/// Refused with 21 above 7.
impl TryFrom<u32> for Unit {
    type Error = Refusal;

    fn try_from(number: u32) -> Result<Unit, Refusal> {
        match number {
            0..8 => Ok(Unit(number as u8)),
            _ => Err(Refusal::new(21)),
        }
    }
}

impl FromStr for Unit {
    type Err = Unreadable;

    fn from_str(text: &str) -> Result<Unit, Unreadable> {
        decimal(text)
            .and_then(|number: u32| Unit::try_from(number).ok())
            .ok_or(Unreadable {
                wanted: "a unit, 0 to 7",
            })
    }
}

impl fmt::Display for Unit {
    fn fmt(&self, f: &mut fmt::Formatter<'_>) -> fmt::Result {
        self.0.fmt(f)
    }
}

/// A list of units, as a fold is given it.
///
/// ```
/// use sab::{Unit, Units};
/// let units: Units = "0,1,5".parse()?;
/// assert!(units.contains(Unit::ALL[5]) && !units.contains(Unit::ALL[2]));
/// assert_eq!(units, Unit::ALL[..2].iter().copied().chain([Unit::ALL[5]]).collect());
/// assert_eq!(units.to_string(), "0,1,5");
/// # Ok::<(), sab::Unreadable>(())
/// ```
#[derive(Clone, Copy, Debug, PartialEq, Eq, Hash)]
pub struct Units(u8);

impl Units {
    /// All eight.
    pub const ALL: Units = Units(255);

    /// The list in a byte, bit u for unit u. Every byte is a list.
    pub const fn from_byte(byte: u8) -> Units {
        Units(byte)
    }

    /// The byte of the list.
    pub const fn to_byte(self) -> u8 {
        self.0
    }

    /// A unit is listed.
    pub const fn contains(self, unit: Unit) -> bool {
        self.0 >> unit.0 & 1 == 1
    }

    /// With one unit more.
    pub const fn with(self, unit: Unit) -> Units {
        Units(self.0 | 1 << unit.0)
    }

    /// The units, rising.
    pub fn iter(self) -> impl Iterator<Item = Unit> {
        let listed = move |unit: &Unit| self.contains(*unit);
        Unit::ALL.into_iter().filter(listed)
    }
}

impl FromIterator<Unit> for Units {
    fn from_iter<I: IntoIterator<Item = Unit>>(units: I) -> Units {
        units.into_iter().fold(Units(0), Units::with)
    }
}

/// Units parted by commas, in any order.
impl FromStr for Units {
    type Err = Unreadable;

    fn from_str(text: &str) -> Result<Units, Unreadable> {
        let units: Result<Units, Unreadable> = text.split(',').map(Unit::from_str).collect();
        units.map_err(|_| Unreadable {
            wanted: "a list of units, as 0,1,2",
        })
    }
}

/// The units parted by commas, rising.
impl fmt::Display for Units {
    fn fmt(&self, f: &mut fmt::Formatter<'_>) -> fmt::Result {
        let units: Vec<String> = self.iter().map(|unit| unit.to_string()).collect();
        f.pad(&units.join(","))
    }
}

/// The identity of a record, and of the entry that it made: unit and number,
/// written as `3.17`. The root is `0.0`.
///
/// ```
/// use sab::{Identity, Unit};
/// let identity: Identity = "3.17".parse()?;
/// assert_eq!(Some(identity), Identity::new(Unit::ALL[3], 17));
/// assert_eq!(identity.to_string(), "3.17");
/// assert!("3.0".parse::<Identity>().is_err());
/// # Ok::<(), sab::Unreadable>(())
/// ```
#[derive(Clone, Copy, Debug, PartialEq, Eq, PartialOrd, Ord, Hash)]
pub struct Identity {
    unit: Unit,
    number: u16,
}

impl Identity {
    /// The folder that no record made and that is always there.
    pub const ROOT: Identity = Identity {
        unit: Unit(0),
        number: 0,
    };

    /// The identity of a unit's record; the numbers begin at 1.
    pub const fn new(unit: Unit, number: u16) -> Option<Identity> {
        match number {
            0 => None,
            _ => Some(Identity { unit, number }),
        }
    }

    /// Whose record it is.
    pub const fn unit(self) -> Unit {
        self.unit
    }

    /// Its number at that unit; 0 of the root.
    pub const fn number(self) -> u16 {
        self.number
    }

    /// It is the root.
    pub const fn is_root(self) -> bool {
        self.number == 0
    }

    /// The four bytes of a record's field.
    pub(crate) const fn to_bytes(self) -> [u8; 4] {
        let [low, high] = self.number.to_le_bytes();
        [self.unit.0, 0, low, high]
    }

    /// What four bytes of a sound log or of a tree name; the root is all zero.
    pub(crate) fn of(bytes: &[u8]) -> Identity {
        Identity {
            unit: Unit::of(bytes[0]),
            number: u16::from_le_bytes([bytes[2], bytes[3]]),
        }
    }
}

impl FromStr for Identity {
    type Err = Unreadable;

    fn from_str(text: &str) -> Result<Identity, Unreadable> {
        let read = || {
            let (unit, number) = text.split_once('.')?;
            let unit = unit.parse().ok()?;
            match (unit, decimal(number)?) {
                (Unit(0), 0) => Some(Identity::ROOT),
                (unit, number) => Identity::new(unit, number),
            }
        };
        read().ok_or(Unreadable {
            wanted: "an identity, as 3.17",
        })
    }
}

impl fmt::Display for Identity {
    fn fmt(&self, f: &mut fmt::Formatter<'_>) -> fmt::Result {
        f.pad(&format!("{}.{}", self.unit.0, self.number))
    }
}

/// A number in decimal digits, without a sign.
pub(crate) fn decimal<T: FromStr>(text: &str) -> Option<T> {
    let digits = !text.is_empty() && text.bytes().all(|byte| byte.is_ascii_digit());
    digits.then(|| text.parse().ok()).flatten()
}
