//! Single blocks, judged by the library and told in words.

use crate::why::counted;
use sab::{Block, Identity, Log, Refusal, Unit, raw};

const MODULUS: u32 = 65_521;

/// A block as a log takes it, with the letters SAB1. One of the form SAB2 has the
/// same places under other letters. Both sums are changed by what the letters
/// change, so that they are right if they were and wrong if they were not.
fn with_sab1(block: &[u8]) -> Vec<u8> {
    let mut block = block.to_vec();
    let is_sab2 = block.len() == raw::BLOCK && block.starts_with(b"SAB2");
    let sum = |at: usize| u32::from(u16::from_le_bytes([block[at], block[at + 1]]));
    if !is_sab2 || sum(508) >= MODULUS || sum(510) >= MODULUS {
        return block;
    }
    // Byte 3, the upper half of the second of 254 words, is one less.
    let less = 256;
    let first = (sum(508) + MODULUS - less) % MODULUS;
    let second = (sum(510) + MODULUS - 253 * less % MODULUS) % MODULUS;
    block[3] = b'1';
    block[508..510].copy_from_slice(&(first as u16).to_le_bytes());
    block[510..512].copy_from_slice(&(second as u16).to_le_bytes());
    block
}

/// What is said of a block of rows.
pub const ROWS: &str = "rows of list and base";

/// A whole block.
pub enum Whole {
    /// Of records; one of the form SAB2 with the letters of SAB1, as a log takes it.
    Records(Box<Block>),
    /// Of rows of list and base, in an SAB2 file.
    Rows,
}

/// What a block is by itself: whether an empty log would take its records, in the
/// block's own archive. An 8 or 9 then only says that it follows on others. Of rows
/// of an SAB2 file the first is a malformed record without an operation, which is
/// judged behind letters, sums and header.
pub fn judge_alone(block: &[u8]) -> Result<Whole, Refusal> {
    let taken = Block::try_from(with_sab1(block).as_slice())?;
    let mut log = Log::start(taken.archive(), Unit::ALL[0]);
    match log.take(taken) {
        Ok(()) => Ok(Whole::Records(Box::new(taken))),
        Err(refusal) if matches!(refusal.number, 8 | 9) => Ok(Whole::Records(Box::new(taken))),
        Err(refusal) if refusal.number == 7 && is_row(block) => Ok(Whole::Rows),
        Err(refusal) => Err(refusal),
    }
}

/// Whether the first place of a block has a row of list and base.
fn is_row(block: &[u8]) -> bool {
    block.starts_with(b"SAB2") && block[29] == 0
}

/// The place that a block says it has in its file.
pub fn place(block: &Block) -> u16 {
    let bytes = block.as_bytes();
    u16::from_le_bytes([bytes[10], bytes[11]])
}

/// The identities of a whole block's records.
pub fn identities(block: &Block) -> impl Iterator<Item = Identity> {
    let (places, _) = block.as_bytes()[28..508].as_chunks::<80>();
    places
        .iter()
        .take(block.count().into())
        .filter_map(|record| {
            let unit = Unit::try_from(u32::from(record[0])).ok()?;
            Identity::new(unit, u16::from_le_bytes([record[2], record[3]]))
        })
}

/// Identities in words: so many, and which.
pub fn listed(identities: &[Identity]) -> String {
    match identities.len() {
        0 => "no records".to_string(),
        count => format!("{}: {}", counted(count, "record"), in_runs(identities)),
    }
}

/// What a whole block is.
pub fn summary(block: &Block) -> String {
    let identities: Vec<Identity> = identities(block).collect();
    format!(
        "archive {}, unit {}, place {}, {}",
        block.archive(),
        block.sender(),
        place(block),
        listed(&identities)
    )
}

/// Identities with runs of numbers drawn together, as `0.3 to 0.9`.
pub fn in_runs(identities: &[Identity]) -> String {
    let mut sorted = identities.to_vec();
    sorted.sort_unstable();
    let mut runs: Vec<(Identity, Identity)> = Vec::new();
    for identity in sorted {
        match runs.last_mut() {
            Some((_, last))
                if last.unit() == identity.unit()
                    && last.number().checked_add(1) == Some(identity.number()) =>
            {
                *last = identity;
            }
            _ => runs.push((identity, identity)),
        }
    }
    let texts: Vec<String> = runs
        .into_iter()
        .map(|(first, last)| match last.number() - first.number() {
            0 => first.to_string(),
            1 => format!("{first}, {last}"),
            _ => format!("{first} to {last}"),
        })
        .collect();
    texts.join(", ")
}
