//! Records that each see all before them, and files of them.

use plain::{BLOCK, PER_BLOCK};

/// A record and what it names.
pub struct Wished {
    pub unit: u8,
    pub operation: u8,
    /// Folder or object: the place of its record in the chain.
    pub named: Option<usize>,
    pub label: String,
    pub mark: u8,
}

/// A record's fields; its number follows from what it has seen.
pub struct Fields<'a> {
    pub unit: u8,
    pub operation: u8,
    /// Counts of the units from 0 on; of the rest 0.
    pub seen: &'a [u16],
    /// Folder or object; the root is 0.0.
    pub named: (u8, u16),
    pub date: (u16, u8, u8),
    pub label: &'a str,
    /// Each byte of the mark.
    pub mark: u8,
}

impl Fields<'_> {
    pub fn record(&self) -> [u8; 80] {
        let mut counts = [0; 8];
        counts[..self.seen.len()].copy_from_slice(self.seen);
        let number = counts[self.unit as usize] + 1;
        let named = if self.operation <= 2 { 24 } else { 20 };
        let mut record = [0; 80];
        record[0] = self.unit;
        record[1] = self.operation;
        record[2..4].copy_from_slice(&number.to_le_bytes());
        put_vector(&mut record[4..20], &counts);
        record[named] = self.named.0;
        record[named + 2..named + 4].copy_from_slice(&self.named.1.to_le_bytes());
        record[28..30].copy_from_slice(&self.date.0.to_le_bytes());
        record[30..32].copy_from_slice(&[self.date.1, self.date.2]);
        record[32..32 + self.label.len()].copy_from_slice(self.label.as_bytes());
        record[64..].fill(self.mark);
        record
    }
}

/// The records of a chain; each sees all before it.
pub fn chain(wished: &[Wished]) -> Vec<[u8; 80]> {
    let mut counts = [0u16; 8];
    let mut records: Vec<[u8; 80]> = Vec::new();
    for wish in wished {
        let identity = |record: &[u8; 80]| (record[0], u16::from_le_bytes([record[2], record[3]]));
        let record = Fields {
            unit: wish.unit,
            operation: wish.operation,
            seen: &counts,
            named: wish.named.map_or((0, 0), |at| identity(&records[at])),
            date: (2025, 3, 1 + (records.len() % 28) as u8),
            label: &wish.label,
            mark: wish.mark,
        };
        records.push(record.record());
        counts[wish.unit as usize] += 1;
    }
    records
}

/// Six records for each block, one of each operation, by three units.
pub fn blocks_of_six(blocks: usize) -> Vec<[u8; 80]> {
    let mut wished = Vec::new();
    for block in 0..blocks {
        let first = 6 * block;
        let mut wish = |unit, operation, named, label: &str, mark| {
            let label = label.to_string();
            wished.push(Wished {
                unit,
                operation,
                named,
                label,
                mark,
            });
        };
        wish(0, 1, None, &format!("Bench {block}"), 0);
        wish(0, 2, Some(first), "Gain", 0x11);
        wish(0, 3, Some(first + 1), "", 0x22);
        wish(0, 5, Some(first + 1), &format!("Gain \"{block}\""), 0);
        wish(1, 4, Some(first), "", 0);
        wish(2, 6, Some(first + 4), "", 0);
    }
    chain(&wished)
}

pub fn put_vector(bytes: &mut [u8], counts: &[u16; 8]) {
    for (bytes, count) in bytes.chunks_mut(2).zip(counts) {
        bytes.copy_from_slice(&count.to_le_bytes());
    }
}

/// Puts a block's sums right.
pub fn seal(block: &mut [u8]) {
    let block: &mut [u8; BLOCK] = block.try_into().expect("a block");
    let (first, second) = plain::sums(block);
    block[508..510].copy_from_slice(&first.to_le_bytes());
    block[510..512].copy_from_slice(&second.to_le_bytes());
}

/// The file of some records, in the order given, however many and whatever.
pub fn file_of(records: &[[u8; 80]], archive: u32, unit: u8) -> Vec<u8> {
    let mut counts = [0u16; 8];
    for record in records {
        counts[(record[0] & 7) as usize] += 1;
    }
    let mut file = Vec::new();
    let empty: [&[[u8; 80]]; 1] = [&[]];
    let parts = if records.is_empty() {
        empty.to_vec()
    } else {
        records.chunks(PER_BLOCK).collect()
    };
    for (place, part) in parts.iter().enumerate() {
        let mut block = [0; BLOCK];
        block[..4].copy_from_slice(b"SAB1");
        block[4..8].copy_from_slice(&archive.to_le_bytes());
        block[8] = unit;
        block[9] = part.len() as u8;
        block[10..12].copy_from_slice(&(place as u16).to_le_bytes());
        put_vector(&mut block[12..28], &counts);
        let bytes = part.as_flattened();
        block[28..28 + bytes.len()].copy_from_slice(bytes);
        seal(&mut block);
        file.extend_from_slice(&block);
    }
    file
}
