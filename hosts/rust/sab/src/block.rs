//! Blocks.

use crate::record::identity_in;
use crate::{Answer, Identity, Refusal, Vector, raw};

/// What passes between two units: 512 bytes with up to six records. A take
/// judges it; until then its bytes may be anything.
#[derive(Clone, Copy, Debug, PartialEq, Eq, Hash)]
pub struct Block([u8; raw::BLOCK]);

impl Block {
    pub(crate) fn new(bytes: [u8; raw::BLOCK]) -> Block {
        Block(bytes)
    }

    /// Its bytes.
    pub const fn as_bytes(&self) -> &[u8; raw::BLOCK] {
        &self.0
    }

    /// Its archive.
    pub fn archive(&self) -> u32 {
        u32::from_le_bytes(std::array::from_fn(|i| self.0[4 + i]))
    }

    /// The sender's unit, as it stands there.
    pub const fn sender(&self) -> u8 {
        self.0[8]
    }

    /// How many records it says to have; a good block has at most six.
    pub const fn count(&self) -> u8 {
        self.0[9]
    }

    /// It has no record: the one who asked lacks nothing.
    pub const fn is_empty(&self) -> bool {
        self.count() == 0
    }

    /// The vector of the sender.
    pub fn vector(&self) -> Vector {
        Vector::from_bytes(&std::array::from_fn(|i| self.0[12 + i]))
    }

    /// Identities and bytes of its records. Of a block that was not taken they
    /// may be of any form.
    pub(crate) fn records(&self) -> impl Iterator<Item = (Identity, &[u8; raw::WISH])> {
        let (places, _) = self.0[28..508].as_chunks();
        places
            .iter()
            .take(self.count().into())
            .map(|record| (identity_in(record), record))
    }
}

impl AsRef<[u8]> for Block {
    fn as_ref(&self) -> &[u8] {
        &self.0
    }
}

/// Refused with 2 if they are not 512 bytes.
impl TryFrom<&[u8]> for Block {
    type Error = Refusal;

    fn try_from(bytes: &[u8]) -> Answer<Block> {
        bytes.try_into().map(Block).map_err(|_| Refusal::new(2))
    }
}
