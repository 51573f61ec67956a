//! What stands in a record beside identities.

use crate::Unreadable;
use crate::unit::decimal;
use std::fmt;
use std::str::FromStr;

/// What a record does.
#[derive(Clone, Copy, Debug, PartialEq, Eq, Hash)]
pub enum Operation {
    /// Makes a folder in a folder, with a label.
    MakeFolder = 1,
    /// Makes a trace in a folder, with a label and a mark.
    MakeTrace = 2,
    /// Gives a trace another mark and date.
    Store = 3,
    /// Removes an entry; a folder only without entries.
    Remove = 4,
    /// Gives an entry another label.
    Rename = 5,
    /// Says that an aside was looked after.
    Settle = 6,
    /// Puts an entry into another folder, with a label.
    Move = 7,
}

impl Operation {
    /// The operation of a byte of a sound log.
    pub(crate) const fn of(byte: u8) -> Operation {
        match byte {
            1 => Operation::MakeFolder,
            2 => Operation::MakeTrace,
            3 => Operation::Store,
            4 => Operation::Remove,
            5 => Operation::Rename,
            6 => Operation::Settle,
            _ => Operation::Move,
        }
    }

    /// The operation's number, 1 to 7.
    pub const fn number(self) -> u8 {
        self as u8
    }

    /// It makes an entry.
    pub const fn is_make(self) -> bool {
        matches!(self, Operation::MakeFolder | Operation::MakeTrace)
    }

    /// It puts an entry into a folder: a make or a move.
    pub const fn has_folder(self) -> bool {
        self.is_make() || matches!(self, Operation::Move)
    }

    /// It names an entry or, to settle, a record.
    pub const fn has_object(self) -> bool {
        !self.is_make()
    }

    /// It gives a label.
    pub const fn has_label(self) -> bool {
        self.has_folder() || matches!(self, Operation::Rename)
    }

    /// It gives a mark.
    pub const fn has_mark(self) -> bool {
        matches!(self, Operation::MakeTrace | Operation::Store)
    }
}

impl fmt::Display for Operation {
    fn fmt(&self, f: &mut fmt::Formatter<'_>) -> fmt::Result {
        f.pad(match self {
            Operation::MakeFolder => "make folder",
            Operation::MakeTrace => "make trace",
            Operation::Store => "store",
            Operation::Remove => "remove",
            Operation::Rename => "rename",
            Operation::Settle => "settle",
            Operation::Move => "move",
        })
    }
}

/// A date. It is shown and orders nothing; an act refuses one that is not real,
/// or not of the years 1990 to 2199, with 7.
///
/// ```
/// let date: sab::Date = "2025-03-04".parse()?;
/// assert_eq!(date, sab::Date::new(2025, 3, 4));
/// assert_eq!(date.to_string(), "2025-03-04");
/// # Ok::<(), sab::Unreadable>(())
/// ```
#[derive(Clone, Copy, Debug, PartialEq, Eq, PartialOrd, Ord, Hash)]
pub struct Date {
    /// The year.
    pub year: u16,
    /// The month, 1 to 12.
    pub month: u8,
    /// The day, 1 to 31.
    pub day: u8,
}

impl Date {
    /// A date, judged when it is used.
    pub const fn new(year: u16, month: u8, day: u8) -> Date {
        Date { year, month, day }
    }

    pub(crate) const fn to_bytes(self) -> [u8; 4] {
        let [low, high] = self.year.to_le_bytes();
        [low, high, self.month, self.day]
    }

    pub(crate) fn of(bytes: &[u8]) -> Date {
        Date::new(u16::from_le_bytes([bytes[0], bytes[1]]), bytes[2], bytes[3])
    }
}

impl FromStr for Date {
    type Err = Unreadable;

    fn from_str(text: &str) -> Result<Date, Unreadable> {
        let read = || {
            let mut parts = text.split('-');
            let mut part = |digits| parts.next().filter(|part| part.len() == digits);
            let (year, month, day) = (part(4)?, part(2)?, part(2)?);
            let date = Date::new(decimal(year)?, decimal(month)?, decimal(day)?);
            parts.next().is_none().then_some(date)
        };
        read().ok_or(Unreadable {
            wanted: "a date, as 2025-03-04",
        })
    }
}

impl fmt::Display for Date {
    fn fmt(&self, f: &mut fmt::Formatter<'_>) -> fmt::Result {
        f.pad(&format!(
            "{:04}-{:02}-{:02}",
            self.year, self.month, self.day
        ))
    }
}

/// Sixteen bytes that name the data of a trace, any bytes.
///
/// ```
/// let mark: sab::Mark = "000102030405060708090a0b0c0d0eff".parse()?;
/// assert_eq!(mark.0[15], 255);
/// assert_eq!(mark.to_string(), "000102030405060708090a0b0c0d0eff");
/// # Ok::<(), sab::Unreadable>(())
/// ```
#[derive(Clone, Copy, Debug, PartialEq, Eq, Hash)]
pub struct Mark(
    /// The bytes.
    pub [u8; 16],
);

impl Mark {
    pub(crate) fn of(bytes: &[u8]) -> Mark {
        Mark(std::array::from_fn(|i| bytes[i]))
    }
}

impl FromStr for Mark {
    type Err = Unreadable;

    fn from_str(text: &str) -> Result<Mark, Unreadable> {
        let read = || {
            let digits: Option<Vec<u32>> = text.chars().map(|digit| digit.to_digit(16)).collect();
            let digits = digits.filter(|digits| digits.len() == 32)?;
            Some(Mark(std::array::from_fn(|i| {
                (16 * digits[2 * i] + digits[2 * i + 1]) as u8
            })))
        };
        read().ok_or(Unreadable {
            wanted: "a mark, 32 hexadecimal digits",
        })
    }
}

/// The bytes in hexadecimal digits, as in a listing.
impl fmt::Display for Mark {
    fn fmt(&self, f: &mut fmt::Formatter<'_>) -> fmt::Result {
        f.pad(&self.0.map(|byte| format!("{byte:02x}")).concat())
    }
}
