//! Rows of blocks.

use crate::{Answer, Block, Identity, Log, Refusal, Tree, Vector, raw};

/// The most blocks of a row.
const BLOCKS: usize = 86;

/// Blocks one behind another, 0 to 86 of them. A take judges them; until then
/// their bytes may be anything.
#[derive(Clone, Debug, Default, PartialEq, Eq, Hash)]
pub struct Row(Vec<u8>);

impl Row {
    pub(crate) fn new(bytes: Vec<u8>) -> Row {
        Row(bytes)
    }

    /// How many blocks.
    pub fn len(&self) -> usize {
        self.0.len() / raw::BLOCK
    }

    /// It has no block: the one who asked lacks nothing.
    pub fn is_empty(&self) -> bool {
        self.0.is_empty()
    }

    /// The blocks.
    pub fn blocks(&self) -> impl ExactSizeIterator<Item = Block> {
        let (blocks, _) = self.0.as_chunks();
        blocks.iter().copied().map(Block::new)
    }
}

impl AsRef<[u8]> for Row {
    fn as_ref(&self) -> &[u8] {
        &self.0
    }
}

/// Refused with 2 if they are not 0 to 86 whole blocks.
impl TryFrom<&[u8]> for Row {
    type Error = Refusal;

    fn try_from(bytes: &[u8]) -> Answer<Row> {
        let whole = bytes.len().is_multiple_of(raw::BLOCK) && bytes.len() / raw::BLOCK <= BLOCKS;
        whole.then(|| Row(bytes.to_vec())).ok_or(Refusal::new(2))
    }
}

/// How far a row was taken.
#[derive(Clone, Copy, Debug, PartialEq, Eq)]
pub struct RowTaken {
    /// How many blocks.
    pub taken: u8,
    /// The refusal of the block behind them, at whose place it stands; none if
    /// all were taken.
    pub stopped: Option<Refusal>,
}

impl RowTaken {
    pub(crate) fn of(taken: u8, stopped: u8) -> RowTaken {
        RowTaken {
            taken,
            stopped: (stopped != 0).then_some(Refusal {
                number: stopped,
                place: taken,
            }),
        }
    }
}

/// What taking a row would do.
#[derive(Clone, Debug, PartialEq, Eq)]
pub struct Trial {
    /// How far it would be taken.
    pub row: RowTaken,
    /// How many records of each unit would be held.
    pub vector: Vector,
    /// The entries of the tree afterwards that are disputed then and were no
    /// disputed entries before, by rank of their makers.
    pub disputed: Vec<Identity>,
    /// The log as it would be.
    pub log: Log,
    /// Its tree.
    pub tree: Tree,
}

impl Trial {
    pub(crate) fn of(report: &[u8; raw::REPORT], log: Log, tree: Tree) -> Trial {
        let count = u16::from_le_bytes([report[2], report[3]]);
        Trial {
            row: RowTaken::of(report[0], report[1]),
            vector: Vector::from_bytes(&std::array::from_fn(|i| report[4 + i])),
            disputed: report[20..]
                .chunks(4)
                .take(count.into())
                .map(Identity::of)
                .collect(),
            log,
            tree,
        }
    }
}
