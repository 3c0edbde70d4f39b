//! The CRC, one bit at a time: no table, so that a wrong table elsewhere can't hide here.

/// Every bit set: where the remainder of any input starts.
pub const START: u32 = u32::MAX;
const POLYNOMIAL: u32 = 0xEDB8_8320;

/// Takes `bytes` into a running remainder.
pub fn update(mut remainder: u32, bytes: &[u8]) -> u32 {
    for &byte in bytes {
        remainder ^= u32::from(byte);
        for _ in 0..8 {
            let low = remainder & 1;
            // All ones where the low bit was set, else zero: a branch here would cost a misprediction per bit.
            remainder = (remainder >> 1) ^ (POLYNOMIAL & low.wrapping_neg());
        }
    }
    remainder
}

/// Reflected CRC-32 that starts at all ones and is NOT inverted at the end.
pub fn checksum(bytes: &[u8]) -> u32 {
    update(START, bytes)
}
