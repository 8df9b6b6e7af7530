//! 01: "the sum of (k+1) × byte k .. modulo 65,521".

/// Below 2^28 bytes the sum fits 64 bits.
pub fn sum(bytes: &[u8]) -> u16 {
    let weighted = bytes.iter().enumerate().map(|(k, byte)| (k as u64 + 1) * u64::from(*byte));
    (weighted.sum::<u64>() % 65_521) as u16
}
