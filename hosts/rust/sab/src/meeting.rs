//! Meetings, with care for numbers that were used twice.
//!
//! A vector tells how many records of a unit are held, not which. If a unit lost
//! its log and acted before it took its records back, two units may hold other
//! records under one identity and never notice: neither asks for what it counts
//! as held. So the one who asks begins with every count above 0 lowered by one.
//! Then the last record of each unit that both hold comes again, the take
//! compares it, and answers 10 if its bytes are others.
//!
//! The lowered records are at most eight, and they come among the lacking ones
//! by rank, so they may lie in any block. The asked counts are therefore raised
//! by what each block brought, and not set to what is held; so each of them comes
//! once, and the last block, of count 0, says that nothing is lacking.
//!
//! Folded records cannot be compared. A count is not lowered where the last record
//! of a unit is folded at the one who asks; where it is folded at the giver, the
//! giver refuses the lowered count with 27, and [`Asking::above`] raises it to what
//! the giver has folded.

use crate::{Answer, Block, Identity, Log, Refusal, Vector};
use std::fmt;

/// The asking side of a meeting, block by block over any link.
///
/// ```
/// use sab::{Asking, Date, Identity, Log, Unit, Wish};
/// # fn main() -> Result<(), sab::Refusal> {
/// let mut giver = Log::start(7, Unit::ALL[0]);
/// giver.act(&Wish::make_folder(Identity::ROOT, "Bench", Date::new(2025, 3, 3))?)?;
/// let mut taker = Log::start(7, Unit::ALL[1]);
///
/// let mut asking = Asking::careful(&taker)?;
/// loop {
///     // Send the vector; the giver answers with a block.
///     let block = giver.hand_out(&asking.vector())?;
///     match asking.take(&mut taker, &block) {
///         Ok(true) => (),                            // store the log, ask on
///         Ok(false) => break,                        // nothing is lacking
///         Err(refusal) if refusal.is_damage() => (), // ask again
///         Err(refusal) => return Err(refusal),       // the meeting ends
///     }
/// }
/// assert_eq!(taker.vector()?, giver.vector()?);
/// # Ok(())
/// # }
/// ```
#[derive(Clone, Copy, Debug, PartialEq, Eq)]
pub struct Asking {
    asked: Vector,
}

impl Asking {
    /// Begins to ask for a log, with every count lowered by one, if it is above 0 and
    /// its record is not folded. To be begun again for each meeting, and for each of
    /// the two that asks in it.
    pub fn careful(log: &Log) -> Answer<Asking> {
        let asked = log.vector()?.lowered().joined(&log.base().vector());
        Ok(Asking { asked })
    }

    /// Begins to ask for every record: what is held is compared with all that the
    /// other holds, in at most 86 blocks. For when a meeting was refused with 10,
    /// or when meetings were not careful before. To one who has folded records it is
    /// to be brought [`above`](Asking::above) these.
    pub fn thorough() -> Asking {
        let asked = Vector::default();
        Asking { asked }
    }

    /// Asks a giver that has folded records, whose base has this vector: counts
    /// below it are raised to it, where the log has as many. A count that is still
    /// below it, since the log lacks folded records, is refused with 27.
    pub fn above(self, log: &Log, folded: &Vector) -> Answer<Asking> {
        let asked = self.asked.joined(&log.vector()?.common(folded));
        Ok(Asking { asked })
    }

    /// The vector to send next.
    pub fn vector(&self) -> Vector {
        self.asked
    }

    /// Takes a block that came; says whether to ask on. After a refusal nothing
    /// has changed, and the same vector may be sent again.
    pub fn take(&mut self, log: &mut Log, block: impl AsRef<[u8]>) -> Answer<bool> {
        log.take(block.as_ref())?;
        let block = Block::try_from(block.as_ref())?;
        for (identity, _) in block.records() {
            self.asked.raise(identity);
        }
        Ok(!block.is_empty())
    }

    /// Takes the blocks of a log at hand in one row, until nothing is lacking or a
    /// take refuses. What was taken before a refusal stays.
    pub fn pass(self, from: &Log, to: &mut Log) -> Pass {
        let mut pass = Pass::default();
        let before = to.records().len();
        pass.refusal = pass_all(self, from, to, &mut pass).err();
        pass.records = (to.records().len() - before) as u32;
        pass
    }
}

/// How the passing of all that one unit lacks ended.
#[derive(Clone, Copy, Debug, Default, PartialEq, Eq)]
pub struct Pass {
    /// Blocks taken, without the empty one that ends the passing.
    pub blocks: u32,
    /// Records taken that were not held before.
    pub records: u32,
    /// What ended it before all was passed.
    pub refusal: Option<Refusal>,
    /// With refusal 10, the record that the two hold with other bytes.
    pub twice: Option<Identity>,
}

/// Passes all that one log lacks of another, carefully.
pub fn pass(from: &Log, to: &mut Log) -> Pass {
    match Asking::careful(to) {
        Ok(asking) => asking.pass(from, to),
        Err(refusal) => Pass {
            refusal: Some(refusal),
            ..Pass::default()
        },
    }
}

fn pass_all(asking: Asking, from: &Log, to: &mut Log, pass: &mut Pass) -> Answer<()> {
    let asking = asking.above(to, &from.base().vector())?;
    let row = from.hand_out_row(&asking.vector())?;
    let taken = to.take_row(&row)?;
    pass.blocks = taken.taken.into();
    let Some(refusal) = taken.stopped else {
        return Ok(());
    };
    if refusal.number == 10 {
        let block = row.blocks().nth(taken.taken.into());
        pass.twice = block.and_then(|block| held_otherwise(to, &block));
    }
    Err(Refusal::new(refusal.number))
}

/// The first record of a block that a log holds with other bytes.
fn held_otherwise(log: &Log, block: &Block) -> Option<Identity> {
    block
        .records()
        .find(|(identity, bytes)| {
            let held = log.record(*identity);
            held.is_some_and(|held| held.as_bytes() != *bytes)
        })
        .map(|(identity, _)| identity)
}

/// How a meeting ended.
#[derive(Clone, Copy, Debug, PartialEq, Eq)]
pub struct Meeting {
    /// What the second unit asked of the first.
    pub to_second: Pass,
    /// What the first asked of the second; nothing if the meeting had ended.
    pub to_first: Option<Pass>,
}

/// Two units meet: the second takes what it lacks, then the first. A refusal ends
/// the meeting, but a full log, 11, a list, 26, or a base, 27, does not keep the
/// other unit from taking.
pub fn meet(first: &mut Log, second: &mut Log) -> Meeting {
    let to_second = pass(first, second);
    let goes_on = to_second.refusal.is_none_or(|refusal| refusal.is_one_sided());
    Meeting {
        to_second,
        to_first: goes_on.then(|| pass(second, first)),
    }
}

impl Meeting {
    /// All was passed both ways: the vectors are equal.
    pub fn is_complete(&self) -> bool {
        self.refusal().is_none()
    }

    /// What kept it from being complete.
    pub fn refusal(&self) -> Option<Refusal> {
        let to_first = self.to_first.and_then(|pass| pass.refusal);
        self.to_second.refusal.or(to_first)
    }
}

impl fmt::Display for Pass {
    fn fmt(&self, f: &mut fmt::Formatter<'_>) -> fmt::Result {
        write!(f, "blocks {} records {}", self.blocks, self.records)?;
        if let Some(refusal) = self.refusal {
            write!(f, ", {refusal}")?;
        }
        match self.twice {
            Some(identity) => write!(f, " ({identity})"),
            None => Ok(()),
        }
    }
}

impl fmt::Display for Meeting {
    fn fmt(&self, f: &mut fmt::Formatter<'_>) -> fmt::Result {
        write!(f, "to the second {}", self.to_second)?;
        match self.to_first {
            Some(pass) => write!(f, "; to the first {pass}"),
            None => Ok(()),
        }
    }
}
