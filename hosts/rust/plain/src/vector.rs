//! Version vectors: eight 16-bit counts in two 64-bit words.

use crate::bytes::{get64, put64};

/// The top bit of each count.
const TOP: u64 = 0x8000_8000_8000_8000;

/// Eight counts: units 0 to 3 in the low word, 4 to 7 in the high one, the
/// first of them lowest.
#[derive(Clone, Copy, PartialEq, Eq)]
pub struct Vector {
    pub low: u64,
    pub high: u64,
}

impl Vector {
    pub const ZERO: Vector = Vector { low: 0, high: 0 };

    #[inline(always)]
    pub fn read(bytes: &[u8], at: usize) -> Vector {
        Vector {
            low: get64(bytes, at),
            high: get64(bytes, at + 8),
        }
    }

    #[inline(always)]
    pub fn write(self, bytes: &mut [u8], at: usize) {
        put64(bytes, at, self.low);
        put64(bytes, at + 8, self.high);
    }

    pub fn of(counts: &[u16; 8]) -> Vector {
        let word =
            |from: usize| (0..4).fold(0, |word, i| word | (counts[from + i] as u64) << (16 * i));
        Vector {
            low: word(0),
            high: word(4),
        }
    }

    /// The count of a unit below 8.
    #[inline(always)]
    pub fn count(self, unit: usize) -> u16 {
        let word = if unit & 4 == 0 { self.low } else { self.high };
        (word >> (16 * (unit & 3))) as u16
    }

    /// The higher count of each unit.
    pub fn higher(self, other: Vector) -> Vector {
        Vector::of(&core::array::from_fn(|unit| {
            self.count(unit).max(other.count(unit))
        }))
    }

    /// One record of a unit more.
    #[inline(always)]
    pub fn and_one_of(self, unit: usize) -> Vector {
        const ONE: [Vector; 8] = {
            let mut one = [Vector::ZERO; 8];
            let mut unit = 0;
            while unit < 4 {
                one[unit].low = 1 << (16 * unit);
                one[unit + 4].high = 1 << (16 * unit);
                unit += 1;
            }
            one
        };
        let one = &ONE[unit & 7];
        Vector {
            low: self.low + one.low,
            high: self.high + one.high,
        }
    }

    /// No count is above the other's.
    #[inline(always)]
    pub fn within(self, other: Vector) -> bool {
        let at_most = |a: u64, b: u64| {
            let rest = (b | TOP) - (a & !TOP);
            (!a & b | !(a ^ b) & rest) & TOP == TOP
        };
        at_most(self.low, other.low) && at_most(self.high, other.high)
    }

    /// The units whose counts differ: bit 16k for unit k, bit 16k + 1 for unit
    /// 4 + k.
    #[inline(always)]
    pub fn differences(self, other: Vector) -> u64 {
        let differ = |a: u64, b: u64| {
            let bits = a ^ b;
            (bits | ((bits & !TOP) + !TOP)) & TOP
        };
        differ(self.low, other.low) >> 15 | differ(self.high, other.high) >> 14
    }

    /// The sum of the eight counts.
    #[inline(always)]
    pub fn total(self) -> u32 {
        const EVEN: u64 = 0x0000_ffff_0000_ffff;
        let pairs = |word: u64| (word & EVEN) + (word >> 16 & EVEN);
        let sum = pairs(self.low) + pairs(self.high);
        (sum + (sum >> 32)) as u32
    }
}

/// What comparing two vectors answers.
#[derive(Clone, Copy, Debug, PartialEq, Eq)]
pub struct Compared {
    /// 0 identical, 1 the first dominates, 2 the second dominates, 3 both ahead.
    pub answer: u8,
    /// How many records the first lacks.
    pub first_lacks: u32,
    /// How many records the second lacks.
    pub second_lacks: u32,
}

/// Compares two vectors, of any counts.
pub fn compare(first: &[u16; 8], second: &[u16; 8]) -> Compared {
    let lacks = |own: &[u16; 8], other: &[u16; 8]| -> u32 {
        let more = own
            .iter()
            .zip(other)
            .map(|(own, other)| other.saturating_sub(*own));
        more.map(u32::from).sum()
    };
    let (first_lacks, second_lacks) = (lacks(first, second), lacks(second, first));
    Compared {
        answer: 2 * (first_lacks != 0) as u8 + (second_lacks != 0) as u8,
        first_lacks,
        second_lacks,
    }
}
