//! Page entries, which untranslated and translation requests check alike.

use crate::bits::{any_set, bit, bits};
use crate::registers::Registers;
use crate::slips::{self, Slip};

/// The address's index at a level: bits (12+9(L-1)) to (20+9(L-1)).
pub fn index(address: u64, level: usize) -> u128 {
    bits(
        &address.to_le_bytes(),
        20 + 9 * (level - 1),
        12 + 9 * (level - 1),
    )
}

/// A leaf is an entry at level 1, or one with bit 7 at level 2 or 3.
pub fn is_leaf(entry: &[u8], level: usize) -> bool {
    level == 1 || ((level == 2 || level == 3) && bit(entry, 7))
}

/// How many of the address's low bits a leaf's page has: 12, 21 or 30.
pub fn low_bits(level: usize) -> usize {
    match level {
        1 => 12,
        2 => 21,
        _ => 30,
    }
}

/// Whether a reserved bit of a page entry is set.
pub fn reserved_in_page_entry(
    slip: Slip,
    registers: &Registers,
    level: usize,
    entry: &[u8],
) -> bool {
    let haw = usize::from(registers.haw);
    // Address bits HAW to 51 (none where HAW is 52);
    if any_set(entry, 51, haw) {
        return true;
    }
    // bit 7 at levels 4 and 5;
    if (level == 4 || level == 5) && bit(entry, 7) {
        return true;
    }
    // bit 7 at level 3 without 1 GiB and level 2 without 2 MiB pages;
    if level == 3 && !registers.pages_1g && bit(entry, 7) {
        return true;
    }
    if level == 2 && !registers.pages_2m && bit(entry, 7) {
        return true;
    }
    // in a large page, 29:12 or 20:12.
    if slips::large_frame_faulted(slip) {
        if level == 3 && bit(entry, 7) && any_set(entry, 29, 12) {
            return true;
        }
        if level == 2 && bit(entry, 7) && any_set(entry, 20, 12) {
            return true;
        }
    }
    // Bit 7 at level 1 is not looked at. Other bits are not looked at.
    false
}
