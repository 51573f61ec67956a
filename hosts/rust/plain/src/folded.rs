//! Where the identities of a base stand.

use crate::replay::{NOWHERE, base_slot};
use crate::{BASE_ROWS, ROWS};

const HEADS: usize = 1024;

/// The rows of a base by identity: those of entries, then those of asides.
pub struct Folded {
    /// First row under each hash, plus 1.
    heads: [u16; HEADS],
    /// Next row under the same head, plus 1.
    next: [u16; ROWS],
    identities: [u32; ROWS],
}

#[inline(always)]
fn head_of(identity: u32) -> usize {
    (8 * (identity >> 16) + (identity & 7)) as usize % HEADS
}

impl Folded {
    pub const NONE: Folded = Folded {
        heads: [0; HEADS],
        next: [0; ROWS],
        identities: [0; ROWS],
    };

    /// The row of an identity.
    #[inline(always)]
    fn row(&self, identity: u32) -> Option<usize> {
        let mut link = self.heads[head_of(identity)];
        while link != 0 && self.identities[link as usize - 1] != identity {
            link = self.next[link as usize - 1];
        }
        (link as usize).checked_sub(1)
    }

    /// Enters an identity; says whether it is new.
    pub fn add(&mut self, identity: u32, row: usize) -> bool {
        if self.row(identity).is_some() {
            return false;
        }
        let head = &mut self.heads[head_of(identity)];
        self.identities[row] = identity;
        self.next[row] = *head;
        *head = row as u16 + 1;
        true
    }

    /// The slot of an entry.
    #[inline(always)]
    pub fn entry(&self, identity: u32) -> u16 {
        match self.row(identity) {
            Some(row) if row < BASE_ROWS => base_slot(row) as u16,
            _ => NOWHERE,
        }
    }

    /// The row of an aside.
    #[inline(always)]
    pub fn aside(&self, identity: u32) -> Option<usize> {
        self.row(identity)?.checked_sub(BASE_ROWS)
    }
}
