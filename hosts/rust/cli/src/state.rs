//! State files: a log with its list and base, as version 6 kept them. They are read
//! and no longer written: the form SAB2 has taken their place.
//!
//! 0-3 the letters SABS; 4-7 archive; 8 unit; 9-15 zero; 16-23 the sum of all other
//! bytes, FNV-1a of 64 bits; from 24 on the base, then the log, as the library is
//! lent them. Numbers are little-endian.

use sab::{Answer, Log, Refusal, Unit, raw};

const LETTERS: &[u8; 4] = b"SABS";
const HEAD: usize = 24;

/// Bytes of a state file.
pub const LENGTH: usize = HEAD + raw::BASE + raw::LOG;

/// Why a state file is no good.
pub enum Fault {
    /// It was cut short, or something stands behind it.
    Length,
    /// Some byte of it changed.
    Sum,
    /// The library refuses what it holds.
    Refused(Refusal),
}

/// Whether bytes are meant as a state file.
pub fn is_state(bytes: &[u8]) -> bool {
    bytes.starts_with(LETTERS)
}

/// The sum of all bytes but the sum itself.
fn sum(bytes: &[u8]) -> u64 {
    let summed = bytes[..16].iter().chain(&bytes[HEAD..]);
    summed.fold(0xcbf2_9ce4_8422_2325, |sum, byte| {
        (sum ^ u64::from(*byte)).wrapping_mul(0x0000_0100_0000_01b3)
    })
}

/// The log in a state file.
pub fn read(bytes: &[u8]) -> Result<Log, Fault> {
    if bytes.len() != LENGTH {
        return Err(Fault::Length);
    }
    if bytes[16..HEAD] != sum(bytes).to_le_bytes() || bytes[9..16] != [0; 7] {
        return Err(Fault::Sum);
    }
    held(bytes).map_err(Fault::Refused)
}

fn held(bytes: &[u8]) -> Answer<Log> {
    let archive = u32::from_le_bytes([bytes[4], bytes[5], bytes[6], bytes[7]]);
    let unit = Unit::try_from(u32::from(bytes[8]))?;
    let (base, log) = bytes[HEAD..].split_at(raw::BASE);
    Log::from_bytes(archive, unit, log, base)
}
