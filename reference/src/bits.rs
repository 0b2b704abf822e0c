//! The paper's bit numbers.
//!
//! An entry is a run of bytes as it lies in memory. Numbers in memory are
//! little-endian, so bit `k` of an entry is bit `k % 8` of its byte `k / 8`.
//! Addresses, data words and source ids are looked at in the same way, after
//! `to_le_bytes`.

/// Bit `k`. A bit past the end of the entry reads as clear.
pub fn bit(entry: &[u8], k: usize) -> bool {
    match entry.get(k / 8) {
        Some(byte) => (byte >> (k % 8)) & 1 == 1,
        None => false,
    }
}

/// Bits `high:low`, both ends included, as a number. An empty range is 0.
/// Only the lowest 128 bits of a longer range are kept.
pub fn bits(entry: &[u8], high: usize, low: usize) -> u128 {
    let mut number = 0;
    for k in low..=high {
        if bit(entry, k) && k - low < 128 {
            number |= 1u128 << (k - low);
        }
    }
    number
}

/// Whether any of bits `high:low` is set. An empty range has none set.
pub fn any_set(entry: &[u8], high: usize, low: usize) -> bool {
    (low..=high).any(|k| bit(entry, k))
}

/// Makes bits `high:low` hold `number`; the other bits stay.
/// A bit past the end of the entry is left out.
pub fn put(entry: &mut [u8], high: usize, low: usize, number: u128) {
    for k in low..=high {
        if let Some(byte) = entry.get_mut(k / 8) {
            *byte &= !(1 << (k % 8));
            if k - low < 128 && (number >> (k - low)) & 1 == 1 {
                *byte |= 1 << (k % 8);
            }
        }
    }
}
