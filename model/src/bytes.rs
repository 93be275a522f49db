//! Numbers in byte strings.
//!
//! "Little-endian; a field without a width is one byte."
//!
//! The bytes asked for must be there: callers have judged the length before.

/// Reads four bytes from `at` on.
pub fn get_u32(bytes: &[u8], at: usize) -> u32 {
    get(bytes, at, 4) as u32
}

/// Reads eight bytes from `at` on.
pub fn get_u64(bytes: &[u8], at: usize) -> u64 {
    get(bytes, at, 8)
}

/// Writes four bytes from `at` on.
pub fn put_u32(bytes: &mut [u8], at: usize, number: u32) {
    bytes[at..at + 4].copy_from_slice(&number.to_le_bytes());
}

/// Writes eight bytes from `at` on.
pub fn put_u64(bytes: &mut [u8], at: usize, number: u64) {
    bytes[at..at + 8].copy_from_slice(&number.to_le_bytes());
}

/// Says whether every byte is zero.
pub fn all_zero(bytes: &[u8]) -> bool {
    bytes.iter().fold(0, |ones, byte| ones | byte) == 0
}

fn get(bytes: &[u8], at: usize, width: usize) -> u64 {
    let digits = bytes[at..at + width].iter().rev();
    digits.fold(0, |number, &byte| number << 8 | u64::from(byte))
}
