//! Interrupt messages.

use crate::random::Random;

/// The largest sum of a handle and a subhandle.
pub const LAST_INDEX: u64 = 131_070;

/// An index for a table of 2^(S+1) entries of which an image holds `held`: mostly one that is there,
/// else one at an edge of the table or of 16 bits.
pub fn index(random: &mut Random, s: u8, held: u64) -> u64 {
    let size = 1u64 << (s + 1);
    let there = size.min(held).max(1);
    match random.below(20) {
        0 => size - 1,
        1 => size,
        2 => random.pick(&[65_534, 65_535, 65_536, 65_537, 131_069, LAST_INDEX]),
        // Held in 16 bits, these would find an entry.
        3 | 4 => (65_536 + random.below(there)).min(LAST_INDEX),
        5 => random.below(LAST_INDEX + 1),
        _ => random.below(there),
    }
}

/// The address and data of a message for a handle and a subhandle, whose sum is the index.
fn with_subhandle(handle: u64, subhandle: u64) -> (u64, u32) {
    (fields(handle) | 1 << 3, subhandle as u32)
}

/// The address of a message in the remappable format, for a handle.
fn fields(handle: u64) -> u64 {
    0xFEE0_0000 | (handle & 0x7FFF) << 5 | 1 << 4 | handle >> 15 << 2
}

/// A message for an index: any handle and subhandle that make it, or the handle alone.
pub fn plain(random: &mut Random, index: u64) -> (u64, u32) {
    if index <= 65_535 && random.coin() {
        // Without SHV data is ignored.
        return (fields(index), random.word() as u32);
    }
    let least = index.saturating_sub(65_535);
    let most = index.min(65_535);
    let subhandle = match random.below(4) {
        0 => least,
        1 => most,
        _ => least + random.below(most - least + 1),
    };
    with_subhandle(index - subhandle, subhandle)
}

/// A message for an index, now and then in the old format, with data bits 31:16, or outside of the
/// interrupt range.
pub fn any(random: &mut Random, index: u64) -> (u64, u32) {
    let (mut address, mut data) = plain(random, index);
    // 1:0 are in no list.
    address |= random.below(4);
    match random.below(60) {
        0..=3 => address &= !(1 << 4),
        4..=6 => data |= 1 << (16 + random.below(16)),
        7 => data = random.word() as u32,
        8 => address ^= 1 << (20 + random.below(44)),
        9 => address += 0x10_0000,
        10 => address -= 0x10_0000,
        11 => address = random.word(),
        _ => {}
    }
    (address, data)
}
