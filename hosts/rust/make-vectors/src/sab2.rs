//! SAB2 files in the making: rows and records as they are, however many and
//! whatever.

use crate::chain::{put_vector, seal};
use plain::{ASIDE_ROW, BASE, BLOCK, ENTRY_ROW, LOG, PER_BLOCK};

type Row = [u8; 80];

/// The rows of list and base, and the records behind them.
#[derive(Clone)]
pub struct Sab2 {
    pub archive: u32,
    pub unit: u8,
    /// What the headers count.
    pub vector: [u16; 8],
    pub rows: Vec<Row>,
    pub records: Vec<Row>,
}

fn word(bytes: &[u8], at: usize) -> usize {
    usize::from(u16::from_le_bytes([bytes[at], bytes[at + 1]]))
}

fn row(bytes: &[u8]) -> Row {
    let mut row = [0; 80];
    row[..bytes.len()].copy_from_slice(bytes);
    row
}

/// The rows of a list and base, sound or not.
pub fn rows_of(base: &[u8]) -> Vec<Row> {
    assert_eq!(base.len(), BASE);
    let mut rows = vec![row(&base[..24])];
    let entries = base[24..].chunks(ENTRY_ROW).take(word(base, 2));
    rows.extend(entries.map(row));
    let asides = &base[24 + 512 * ENTRY_ROW..][..ASIDE_ROW * word(base, 4)];
    rows.extend(asides.chunks(6 * ASIDE_ROW).map(row));
    rows
}

impl Sab2 {
    /// Of a state.
    pub fn of(log: &[u8], base: &[u8], archive: u32, unit: u8) -> Sab2 {
        assert_eq!(log.len(), LOG);
        let records = log.as_chunks().0.iter().copied();
        Sab2 {
            archive,
            unit,
            vector: plain::vector(log, base).expect("a sound state"),
            rows: rows_of(base),
            records: records.take_while(|record| word(record, 2) != 0).collect(),
        }
    }

    /// How many blocks the rows have.
    pub fn row_blocks(&self) -> usize {
        self.rows.len().div_ceil(PER_BLOCK)
    }

    /// Changes bytes of a row.
    pub fn with_row(mut self, i: usize, changes: &[(usize, u8)]) -> Sab2 {
        changes
            .iter()
            .for_each(|(at, byte)| self.rows[i][*at] = *byte);
        self
    }

    /// Changes bytes of a record.
    pub fn with_record(mut self, i: usize, changes: &[(usize, u8)]) -> Sab2 {
        changes
            .iter()
            .for_each(|(at, byte)| self.records[i][*at] = *byte);
        self
    }

    /// The file: rows, then records, six a block.
    pub fn file(&self) -> Vec<u8> {
        let runs = self
            .rows
            .chunks(PER_BLOCK)
            .chain(self.records.chunks(PER_BLOCK));
        runs.enumerate()
            .flat_map(|(place, run)| self.block(place, run))
            .collect()
    }

    /// A block of some places.
    pub fn block(&self, place: usize, run: &[Row]) -> [u8; BLOCK] {
        let mut block = [0; BLOCK];
        block[..4].copy_from_slice(b"SAB2");
        block[4..8].copy_from_slice(&self.archive.to_le_bytes());
        block[8] = self.unit;
        block[9] = run.len() as u8;
        block[10..12].copy_from_slice(&(place as u16).to_le_bytes());
        put_vector(&mut block[12..28], &self.vector);
        block[28..28 + 80 * run.len()].copy_from_slice(run.as_flattened());
        seal(&mut block);
        block
    }
}
