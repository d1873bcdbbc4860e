//! CRC-32 of IEEE 802.3, bit by bit.

const POLYNOMIAL: u32 = 0xEDB8_8320;

/// The checksum of `text`.
pub fn crc32(text: &[u8]) -> u32 {
    let mut state = u32::MAX;
    for &byte in text {
        state ^= u32::from(byte);
        for _ in 0..8 {
            let carry = state & 1 == 1;
            state >>= 1;
            if carry {
                state ^= POLYNOMIAL;
            }
        }
    }
    !state
}

#[cfg(test)]
mod tests {
    use super::crc32;

    #[test]
    fn known_values() {
        assert_eq!(crc32(b""), 0);
        assert_eq!(crc32(b"123456789"), 0xCBF4_3926);
        assert_eq!(crc32(b"9:2:10:1"), 1226559413);
    }
}
