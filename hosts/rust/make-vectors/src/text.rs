//! The words of a vector line.

/// `LENGTH:HEX` without the zeros at the end.
pub fn bytes(bytes: &[u8]) -> String {
    let used = bytes
        .iter()
        .rposition(|byte| *byte != 0)
        .map_or(0, |at| at + 1);
    let hex: String = bytes[..used]
        .iter()
        .map(|byte| format!("{byte:02x}"))
        .collect();
    format!("{}:{hex}", bytes.len())
}

/// Eight counts parted by commas.
pub fn vector(counts: &[u16; 8]) -> String {
    counts.map(|count| count.to_string()).join(",")
}

/// A list of units, bit u for unit u: units parted by commas, or `-`.
pub fn units(list: u8) -> String {
    let listed = (0..8).filter(|unit| list >> unit & 1 == 1);
    let units: Vec<String> = listed.map(|unit: u8| unit.to_string()).collect();
    if units.is_empty() { "-".to_string() } else { units.join(",") }
}

/// What a comparison answers: 0 to 3, and how many records each lacks.
pub fn compared(said: &plain::Compared) -> String {
    format!("{} {} {}", said.answer, said.first_lacks, said.second_lacks)
}

/// FNV-1a of 64 bits.
pub fn hash(bytes: &[u8]) -> String {
    let hash = bytes.iter().fold(0xcbf2_9ce4_8422_2325u64, |hash, byte| {
        (hash ^ *byte as u64).wrapping_mul(0x0000_0100_0000_01b3)
    });
    format!("{hash:016x}")
}

/// A buffer lent for writing: byte i is the seed and 31 times i.
pub fn lent(length: usize, seed: u8) -> Vec<u8> {
    (0..length)
        .map(|i| seed.wrapping_add((31 * i) as u8))
        .collect()
}
