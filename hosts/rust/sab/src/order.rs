//! Another maker's order of replay.

use crate::Tree;
use std::fmt;

/// What an order must meet, each judged wholly before the next.
#[derive(Clone, Copy, Debug, PartialEq, Eq, PartialOrd, Ord, Hash)]
pub enum Condition {
    /// It names each record of the log once, and nothing else.
    Names,
    /// No record stands before one that it has seen.
    Seen,
    /// Replayed in this order, the records leave the same entries and asides.
    Tree,
}

impl Condition {
    pub(crate) const fn of(number: u16) -> Option<Condition> {
        match number {
            1 => Some(Condition::Names),
            2 => Some(Condition::Seen),
            3 => Some(Condition::Tree),
            _ => None,
        }
    }

    /// Its number, 1 to 3.
    pub const fn number(self) -> u8 {
        match self {
            Condition::Names => 1,
            Condition::Seen => 2,
            Condition::Tree => 3,
        }
    }
}

/// What it asks.
impl fmt::Display for Condition {
    fn fmt(&self, f: &mut fmt::Formatter<'_>) -> fmt::Result {
        f.pad(match self {
            Condition::Names => "each record is named once, and nothing else",
            Condition::Seen => "no record stands before one that it has seen",
            Condition::Tree => "the same entries and asides are left",
        })
    }
}

/// What checking an order came to.
#[derive(Clone, Debug, PartialEq, Eq)]
pub struct OrderChecked {
    /// The condition that failed first; none where the order is accepted.
    pub failed: Option<Condition>,
    /// Our tree and that of the order, if the first two conditions hold.
    pub trees: Option<(Tree, Tree)>,
}
