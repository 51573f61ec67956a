//! Little-endian numbers in byte arrays.

#[inline(always)]
pub fn get16(bytes: &[u8], at: usize) -> u16 {
    u16::from_le_bytes([bytes[at], bytes[at + 1]])
}

#[inline(always)]
pub fn get32(bytes: &[u8], at: usize) -> u32 {
    match bytes[at..].first_chunk() {
        Some(four) => u32::from_le_bytes(*four),
        None => 0,
    }
}

#[inline(always)]
pub fn get64(bytes: &[u8], at: usize) -> u64 {
    match bytes[at..].first_chunk() {
        Some(eight) => u64::from_le_bytes(*eight),
        None => 0,
    }
}

#[inline(always)]
pub fn put16(bytes: &mut [u8], at: usize, value: u16) {
    bytes[at..at + 2].copy_from_slice(&value.to_le_bytes());
}

#[inline(always)]
pub fn put32(bytes: &mut [u8], at: usize, value: u32) {
    bytes[at..at + 4].copy_from_slice(&value.to_le_bytes());
}

#[inline(always)]
pub fn put64(bytes: &mut [u8], at: usize, value: u64) {
    bytes[at..at + 8].copy_from_slice(&value.to_le_bytes());
}

/// All bytes are zero.
#[inline]
pub fn all_zero(bytes: &[u8]) -> bool {
    let (words, rest) = bytes.as_chunks::<128>();
    let clear = words
        .iter()
        .all(|word| word.iter().fold(0, |seen, byte| seen | byte) == 0);
    clear && rest.iter().all(|byte| *byte == 0)
}
