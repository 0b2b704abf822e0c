//! Addresses at the edges.

use crate::random::Random;

/// Around FEE00000h to FEEFFFFFh, and the same with another bit 32.
pub const NEAR_INTERRUPTS: [u64; 10] = [
    0xFEDF_FFFF,
    0xFEE0_0000,
    0xFEE0_0001,
    0xFEE8_0010,
    0xFEEF_FFFF,
    0xFEF0_0000,
    0x1_FEE0_0000,
    0x1_FEEF_FFFF,
    0x8000_0000_FEE0_0000,
    0xFFFF_FFFF_FEE0_0000,
];

/// Every 2^n - 1 and 2^n, those around the interrupt range, and the last of all.
pub fn addresses() -> impl Iterator<Item = u64> {
    let powers = (0..64).flat_map(|n| [(1u64 << n) - 1, 1 << n]);
    powers.chain(NEAR_INTERRUPTS).chain([u64::MAX])
}

/// An address for tables of `width` bits, X of document 01: mostly below 2^X.
pub fn address(random: &mut Random, width: u32) -> u64 {
    match random.below(20) {
        0 => (1 << width) - 1,
        1 => 1 << width,
        2 => random.pick(&NEAR_INTERRUPTS),
        3 => random.pick(&[u64::MAX, 1 << 63, (1 << 57) - 1, 1 << 57]),
        4 => {
            let power = 1 << random.below(64);
            power - random.below(2)
        }
        5 => random.word(),
        _ => random.bits(width),
    }
}
