//! Fields of all files: heads, and sets of names.

use super::table::HEAD_BYTES;

pub fn head_bytes(tag: u8, length: usize) -> [u8; HEAD_BYTES] {
    let [high, low] = (length as u16).to_be_bytes();
    [tag, high, low]
}

/// Writes a head at the beginning of a buffer.
pub fn head(at: &mut [u8], tag: u8, length: usize) {
    at[..HEAD_BYTES].copy_from_slice(&head_bytes(tag, length));
}

pub fn load_set(bytes: &[u8]) -> u64 {
    u64::from_be_bytes(bytes.try_into().expect("a set of names is 8 bytes"))
}
