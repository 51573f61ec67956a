//! Records of eight units that learn from each other, and logs of them.

use crate::input::Input;
use plain::{BLOCK, EMPTY_BASE, LOG, RECORD, RECORDS};
use std::sync::OnceLock;
use workload::{Mix, log_of, vector_of};

pub const ARCHIVE: u32 = 7;

type Vector = [u16; 8];

/// Records in rank order, and what each unit knows of them.
pub struct Life {
    pub records: Vec<[u8; RECORD]>,
    known: [Vector; 8],
}

/// A log that all units know at first: of 0, 20, 500, 507 or 512 records.
fn common(which: usize) -> &'static [[u8; RECORD]] {
    static FULL: OnceLock<Vec<u8>> = OnceLock::new();
    let full = FULL.get_or_init(|| log_of(RECORDS, 4, 6, &Mix::MOVES, 5));
    let records = [0, 20, 500, 507, 512][which];
    &full.as_chunks().0[..records]
}

pub fn get16(bytes: &[u8], at: usize) -> u16 {
    u16::from_le_bytes([bytes[at], bytes[at + 1]])
}

fn rank(record: &[u8; RECORD]) -> (u32, u8) {
    let sum = (0..8).map(|unit| get16(record, 4 + 2 * unit) as u32).sum();
    (sum, record[0])
}

/// Some in capitals and small letters, and signs that stand beside the letters.
const LABELS: [&[u8]; 16] = [
    b"A",
    b"a",
    b"B",
    b"Gain \"A\"",
    b"gAIN \"a\"",
    b"\\",
    b"12345678901234567890123456789012",
    b"C",
    b"A/B",
    b"[",
    b"{",
    b"@",
    b"`",
    b"_",
    b"Z",
    b"z",
];

impl Life {
    pub fn drawn(input: &mut Input) -> Life {
        let which = match input.byte() % 16 {
            0..9 => 0,
            9..12 => 1,
            other => other as usize - 11,
        };
        let common = common(which);
        let mut life = Life {
            records: common.to_vec(),
            known: [vector_of(common.as_flattened()); 8],
        };
        for _ in 0..input.below(24) {
            life.make(input);
        }
        life.records.sort_by_key(rank);
        life
    }

    /// A unit learns what another knows, perhaps, and makes a record.
    fn make(&mut self, input: &mut Input) {
        let unit = input.below(8);
        let learn = input.byte();
        if learn & 1 == 1 {
            let other = self.known[learn as usize >> 1 & 7];
            let own = &mut self.known[unit];
            *own = std::array::from_fn(|i| own[i].max(other[i]));
        }
        let seen = self.known[unit];
        let mut record = [0; RECORD];
        record[0] = unit as u8;
        record[1] = 1 + input.byte() % 7;
        record[2..4].copy_from_slice(&(seen[unit] + 1).to_le_bytes());
        for (i, count) in seen.iter().enumerate() {
            record[4 + 2 * i..6 + 2 * i].copy_from_slice(&count.to_le_bytes());
        }
        record[28..32].copy_from_slice(&[0xe9, 7, 1 + input.byte() % 12, 28]);
        fill_in(&mut record, &seen, input);
        self.records.push(record);
        self.known[unit][unit] += 1;
    }

    /// What a unit has: its log, folded or not. A unit may fold for another, and
    /// by a list that others are not on.
    pub fn state(&self, unit: usize, input: &mut Input) -> State {
        let mut state = State {
            log: self.log(unit),
            base: EMPTY_BASE.to_vec(),
        };
        for _ in 0..input.below(3) {
            let (own, mut list) = (input.below(8) as u8, input.byte() | 1 << unit);
            let held = state.vector();
            (0..8).for_each(|unit| list |= u8::from(held[unit] > 0) << unit);
            list |= 1 << own;
            let (log, base) = (&mut state.log, &mut state.base);
            let _ = plain::fold(log, base, ARCHIVE, own, list);
        }
        state
    }

    /// The records that a unit knows, at most a full log.
    pub fn log(&self, unit: usize) -> Vec<u8> {
        let known = &self.known[unit];
        let mut log = Vec::with_capacity(LOG);
        for record in &self.records {
            if get16(record, 2) <= known[record[0] as usize] && log.len() < LOG {
                log.extend(record);
            }
        }
        log.resize(LOG, 0);
        log
    }
}

/// A log and its base.
#[derive(Clone)]
pub struct State {
    pub log: Vec<u8>,
    pub base: Vec<u8>,
}

impl State {
    /// The held vector; the log's counts where the state is not sound.
    pub fn vector(&self) -> Vector {
        plain::vector(&self.log, &self.base).unwrap_or_else(|_| vector_of(&self.log))
    }

    /// Changes some bytes of the log, seldom, or of the base.
    pub fn patch(&mut self, input: &mut Input, seldom: u8) {
        if input.one_in(seldom) {
            let end = RECORD * (held(&self.log) + 1);
            input.patch(&mut self.log, end);
        }
        if input.one_in(seldom) {
            let [entries, asides] = [2, 4].map(|at| usize::from(get16(&self.base, at)).min(512));
            match input.byte() % 3 {
                0 => input.patch(&mut self.base, 24 + 72 * (entries + 1)),
                1 => input.patch(&mut self.base, 24),
                _ => input.patch(&mut self.base[36_888..], 12 * (asides + 1)),
            }
        }
        if input.one_in(64) {
            self.base.truncate(input.below(self.base.len() + 1));
        }
    }
}

/// The fields that the operation uses. A record that can name nothing makes a
/// folder in the root.
pub fn fill_in(record: &mut [u8; RECORD], seen: &Vector, input: &mut Input) {
    let named = |input: &mut Input| {
        let (first, number) = (input.below(8), input.byte() as u16);
        let unit = (0..8).map(|i| (first + i) % 8).find(|unit| seen[*unit] > 0);
        let named = unit.map(|unit| (unit as u8, 1 + number % seen[unit]));
        (named, number.is_multiple_of(3))
    };
    let (first, root) = named(input);
    if record[1] > 2 && first.is_none() {
        record[1] = 1;
    }
    let operation = record[1];
    let mut put = |at: usize, named: Option<(u8, u16)>| {
        if let Some((unit, number)) = named {
            record[at] = unit;
            record[at + 2..at + 4].copy_from_slice(&number.to_le_bytes());
        }
    };
    match operation {
        1 | 2 if root => (),
        1 | 2 => put(24, first),
        _ => put(20, first),
    }
    if operation == 7
        && let (folder, false) = named(input)
    {
        put(24, folder);
    }
    if matches!(operation, 1 | 2 | 5 | 7) {
        let label = LABELS[input.below(LABELS.len())];
        record[32..32 + label.len()].copy_from_slice(label);
    }
    if matches!(record[1], 2 | 3) {
        record[64..].fill(input.byte());
    }
}

/// How many records a log has.
pub fn held(log: &[u8]) -> usize {
    let places = log.chunks(RECORD);
    places.take_while(|record| record[2..4] != [0, 0]).count()
}

/// Writes the sums of a block.
pub fn seal(block: &mut [u8]) {
    let Ok(whole) = <&[u8; BLOCK]>::try_from(&*block) else {
        return;
    };
    let (first, second) = plain::sums(whole);
    block[508..510].copy_from_slice(&first.to_le_bytes());
    block[510..].copy_from_slice(&second.to_le_bytes());
}
