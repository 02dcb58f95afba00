//! Buffers that are lent to a call.

/// Bytes over 7F, which no text and no padding has, so that a byte written
/// where it should be kept always shows.
pub fn pattern(length: usize) -> Vec<u8> {
    (0..length)
        .map(|index| 0x80 | (index * 29 % 127) as u8)
        .collect()
}
