//! What a call says no with.

use std::error::Error;
use std::fmt;

/// A call's no: the number of the refusal table, and the block's place.
///
/// ```
/// let full = sab::Refusal::new(11);
/// assert_eq!(full.to_string(), "refused 11: the log is full: no room for a 513th record");
/// let damaged = sab::Refusal { number: 4, place: 3 };
/// assert_eq!(damaged.to_string(), "refused 4 at 3: a sum differs: the block is damaged");
/// ```
#[derive(Clone, Copy, Debug, PartialEq, Eq, Hash)]
pub struct Refusal {
    /// The number, 1 to 21, 24 to 29 or 31, but not 17.
    pub number: u8,
    /// The block at fault, counted from 0. It is 0 for a call with one block, and
    /// for a number that has no place.
    pub place: u8,
}

/// What a call answers.
pub type Answer<T> = Result<T, Refusal>;

impl Refusal {
    /// A refusal at place 0, or without a place.
    pub const fn new(number: u8) -> Refusal {
        Refusal { number, place: 0 }
    }

    /// The cause, in words.
    pub const fn in_words(self) -> &'static str {
        in_words(self.number)
    }

    /// The block was damaged on its way, 2 to 4: ask for it again.
    pub const fn is_damage(self) -> bool {
        matches!(self.number, 2..=4)
    }

    /// It keeps one unit from taking and not the other, 11, 26, 27: the log is full,
    /// a unit is not listed, or records are folded that the other lacks.
    pub const fn is_one_sided(self) -> bool {
        matches!(self.number, 11 | 26 | 27)
    }

    /// The number has a place: 2 to 11, 20, and from 24 on, where it is always 0 but
    /// for 26 of a file.
    pub const fn has_place(self) -> bool {
        matches!(self.number, 2..=11 | 20 | 24..=29 | 31)
    }
}

impl fmt::Display for Refusal {
    fn fmt(&self, f: &mut fmt::Formatter<'_>) -> fmt::Result {
        write!(f, "refused {}", self.number)?;
        if self.place != 0 {
            write!(f, " at {}", self.place)?;
        }
        write!(f, ": {}", self.in_words())
    }
}

impl Error for Refusal {}

/// What a number of the refusal table says, also as the reason of an aside.
pub const fn in_words(number: u8) -> &'static str {
    match number {
        0 => "success",
        1 => "a lent buffer is not of the stated length",
        2 => "a block is not 512 bytes, or a file is not 1 to 86 blocks (SAB2: 186)",
        3 => "a block does not begin with the letters of its form, SAB1 or SAB2",
        4 => "a sum differs: the block is damaged",
        5 => "a header's unit is above 7 or its count above 6, or an unused place is not zero",
        6 => "the block is of another archive",
        7 => "a record or a wish is not well formed",
        8 => "a number is not its unit's next, or the record has seen what is not held",
        9 => "what a record has seen is not closed",
        10 => "a record is held with other bytes: its number was used twice",
        11 => "the log is full: no room for a 513th record",
        12 => "the object is not in the tree",
        13 => "the folder is not in the tree",
        14 => "a trace is used as a folder, or a folder is stored to",
        15 => "an entry of that folder has the label, in any case",
        16 => "the folder to remove has entries",
        17 => "the object was changed by a record that its maker had not seen",
        18 => "the record to settle does not stand aside",
        19 => "the log, its list or its base is not sound",
        20 => "the file's blocks disagree, its ranks do not rise, or its vector is not its counts",
        21 => "the unit is above 7",
        24 => "the label of a new record has a stroke",
        25 => "a folder would be put into itself or below itself",
        26 => "a unit is not in the list of the archive's units",
        27 => "what is folded here or there is lacking on the other side",
        28 => "the unit has used its last number, 65,535",
        29 => "records are folded: no file of the form SAB1, and no order to check",
        30 => "an event of a plan is not one",
        31 => "the list or base of the file breaks its layout or is not sound",
        _ => "no number of the refusal table",
    }
}

/// A text that is not what it was read as.
#[derive(Clone, Copy, Debug, PartialEq, Eq, Hash)]
pub struct Unreadable {
    pub(crate) wanted: &'static str,
}

impl fmt::Display for Unreadable {
    fn fmt(&self, f: &mut fmt::Formatter<'_>) -> fmt::Result {
        write!(f, "not {}", self.wanted)
    }
}

impl Error for Unreadable {}
