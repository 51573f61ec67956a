//! Records of small examples: how they come about stands in docs/FORMAT.md and
//! docs/EXAMPLES.md.

use crate::chain::Fields;

/// A record of March 2025: unit, seen, operation, folder or object, label, mark,
/// day.
pub fn record(
    unit: u8,
    seen: &[u16],
    operation: u8,
    named: (u8, u16),
    label: &str,
    mark: u8,
    day: u8,
) -> [u8; 80] {
    Fields {
        unit,
        operation,
        seen,
        named,
        date: (2025, 3, day),
        label,
        mark,
    }
    .record()
}

pub const ROOT: (u8, u16) = (0, 0);

/// A move of March 2025: unit, seen, object, folder, label, day.
pub fn moved(
    unit: u8,
    seen: &[u16],
    object: (u8, u16),
    folder: (u8, u16),
    label: &str,
    day: u8,
) -> [u8; 80] {
    let mut record = record(unit, seen, 7, object, label, 0, day);
    record[24] = folder.0;
    record[26..28].copy_from_slice(&folder.1.to_le_bytes());
    record
}

/// The file of document 01.
pub fn paper() -> Vec<[u8; 80]> {
    vec![
        record(0, &[], 1, ROOT, "Bench", 0, 3),
        record(0, &[1], 2, (0, 1), "Gain \"A\"", 0x11, 4),
        record(1, &[1], 2, (0, 1), "Gain \"A\"", 0x22, 5),
    ]
}

/// Two blocks: a store and a rename apart that both fit, a remove that stands
/// aside and is settled, and one that acts.
pub fn two_blocks() -> Vec<[u8; 80]> {
    vec![
        record(0, &[], 1, ROOT, "Van 3\\rear", 0, 3),
        record(0, &[1], 2, (0, 1), "Noise floor", 0x11, 4),
        record(0, &[2], 3, (0, 2), "", 0x33, 6),
        record(1, &[2], 5, (0, 2), "Noise", 0, 5),
        record(2, &[2], 4, (0, 2), "", 0, 5),
        record(1, &[3, 1], 2, (0, 1), "Spare", 0x44, 7),
        record(0, &[3, 2, 1], 6, (2, 1), "", 0, 8),
        record(0, &[4, 2, 1], 4, (1, 2), "", 0, 8),
        record(2, &[5, 2, 1], 1, ROOT, "Van 4", 0, 9),
    ]
}

/// The same, but the last record has not seen 1.2, which 0.5 has seen.
pub fn not_closed() -> Vec<[u8; 80]> {
    let mut records = two_blocks();
    records[8] = record(2, &[5, 1, 1], 1, ROOT, "Van 4", 0, 9);
    records
}

/// Each operation but move once.
pub fn operations() -> Vec<[u8; 80]> {
    vec![
        record(0, &[], 1, ROOT, "Bench", 0, 3),
        record(0, &[1], 2, (0, 1), "Gain", 0x11, 4),
        record(0, &[2], 4, (0, 2), "", 0, 5),
        record(1, &[2], 3, (0, 2), "", 0x22, 6),
        record(0, &[3, 1], 5, (0, 1), "Bench 2", 0, 7),
        record(0, &[4, 1], 6, (1, 1), "", 0, 8),
    ]
}

/// An aside of each reason, and one of them settled.
pub fn reasons() -> Vec<[u8; 80]> {
    vec![
        record(0, &[], 1, ROOT, "Bench", 0, 3),
        record(0, &[1], 2, (0, 1), "Gain", 0x11, 3),
        record(0, &[2], 1, ROOT, "Old", 0, 4),
        record(0, &[3], 1, ROOT, "Spare", 0, 4),
        record(0, &[4], 4, (0, 3), "", 0, 10),
        record(1, &[4], 2, (0, 3), "Loss", 0x22, 10),
        record(3, &[4], 2, (0, 2), "Peak", 0x33, 10),
        record(0, &[5], 3, (0, 2), "", 0x44, 11),
        record(1, &[4, 1], 5, (0, 3), "Older", 0, 11),
        record(0, &[6], 2, (0, 4), "Noise", 0x55, 12),
        record(1, &[4, 2], 4, (0, 2), "", 0, 12),
        record(2, &[4, 2], 5, (0, 2), "Gain 2", 0, 12),
        record(1, &[4, 3], 2, (0, 4), "Noise", 0x66, 13),
        record(2, &[4, 3, 1], 6, (2, 1), "", 0, 14),
        record(2, &[4, 3, 2], 4, (0, 4), "", 0, 15),
        record(0, &[7, 4], 6, (1, 1), "", 0, 16),
    ]
}

/// Two units move two folders into each other; a third moves a trace.
pub fn moves() -> Vec<[u8; 80]> {
    vec![
        record(0, &[], 1, ROOT, "Roof", 0, 3),
        record(0, &[1], 1, ROOT, "Bench", 0, 3),
        record(0, &[2], 2, (0, 1), "Gain", 0x11, 4),
        moved(0, &[3], (0, 1), (0, 2), "Roof", 5),
        moved(1, &[3], (0, 2), (0, 1), "Bench", 5),
        moved(2, &[3], (0, 3), (0, 2), "Gain 2", 6),
    ]
}

/// Two units that have heard all but the last record, which settles an aside of
/// those before.
pub fn folded() -> Vec<[u8; 80]> {
    let mut records = paper();
    records.extend([
        record(0, &[2, 1], 3, (0, 2), "", 0x33, 6),
        record(1, &[3, 1], 5, (0, 2), "Gain", 0, 7),
        record(0, &[3, 2], 6, (1, 1), "", 0, 8),
    ]);
    records
}

/// A settled aside and an open one, whose marked entry was removed.
pub fn removed() -> Vec<[u8; 80]> {
    vec![
        record(0, &[], 2, ROOT, "A\\B", 0x11, 3),
        record(1, &[], 2, ROOT, "A\\B", 0x22, 3),
        record(2, &[], 2, ROOT, "A\\B", 0x33, 3),
        record(0, &[1, 1, 1], 6, (1, 1), "", 0, 4),
        record(0, &[2, 1, 1], 4, (0, 1), "", 0, 5),
    ]
}
